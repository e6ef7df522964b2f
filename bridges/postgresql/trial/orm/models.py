"""The models of a small shop, as a Django application has them. To be imported when Django is configured."""
import uuid

from django.db import models


class Customer(models.Model):
    """Who buys: found by its address, and made at its first order."""
    name = models.CharField(max_length=60)
    email = models.EmailField(unique=True)
    is_active = models.BooleanField(default=True)
    joined = models.DateTimeField(auto_now_add=True)
    sponsor = models.ForeignKey('self', null=True, blank=True, on_delete=models.SET_NULL)


class Product(models.Model):
    """What is sold, with a price and a stock that may not fall below zero."""
    sku = models.SlugField(unique=True)
    title = models.CharField(max_length=80)
    about = models.TextField(blank=True)
    price = models.DecimalField(max_digits=10, decimal_places=2)
    stock = models.PositiveIntegerField(default=0)
    rating = models.FloatField(null=True)
    tags = models.JSONField(default=dict)
    updated = models.DateTimeField(auto_now=True)


class Order(models.Model):
    """An order of a customer, with its total."""
    number = models.UUIDField(default=uuid.uuid4, unique=True)
    customer = models.ForeignKey(Customer, on_delete=models.CASCADE, related_name='orders')
    status = models.CharField(max_length=10, default='new', choices=[('new', 'New'), ('paid', 'Paid'), ('sent', 'Sent')])
    total = models.DecimalField(max_digits=12, decimal_places=2, default=0)
    note = models.TextField(blank=True)
    placed = models.DateTimeField(auto_now_add=True)
    updated = models.DateTimeField(auto_now=True)


class Line(models.Model):
    """A product of an order."""
    order = models.ForeignKey(Order, on_delete=models.CASCADE, related_name='lines')
    product = models.ForeignKey(Product, on_delete=models.PROTECT)
    count = models.PositiveSmallIntegerField()
    price = models.DecimalField(max_digits=10, decimal_places=2)

    class Meta:
        """Its constraints."""
        constraints = [models.UniqueConstraint(fields=['order', 'product'], name='a_product_once')]


class Counter(models.Model):
    """A number by its name, for get_or_create and update_or_create."""
    name = models.CharField(max_length=30, unique=True)
    value = models.IntegerField(default=0)


class Wallet(models.Model):
    """Money of an owner."""
    owner = models.CharField(max_length=30)
    balance = models.DecimalField(max_digits=12, decimal_places=2)
    changed = models.DateTimeField(auto_now=True)


class Doctor(models.Model):
    """Somebody who may be on call."""
    name = models.CharField(max_length=30)
    is_on_call = models.BooleanField(default=True)


ALL = (Customer, Product, Order, Line, Counter, Wallet, Doctor)
