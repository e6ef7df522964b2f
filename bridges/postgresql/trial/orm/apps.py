"""The shop as an application of Django."""
from django.apps import AppConfig


class ShopConfig(AppConfig):
    """Finds `models`."""
    name = 'trial.orm'
    label = 'shop'
