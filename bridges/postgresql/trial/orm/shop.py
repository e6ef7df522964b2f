"""A shop on Django's ORM, under load: what its views do, with the idioms of Django's documentation."""
import random
from decimal import Decimal

import django
from django.conf import settings

from .load import Application, Planted

PRODUCTS = 6
ROWS = f"""
INSERT INTO shop_product (sku, title, about, price, stock, tags, updated)
SELECT 'p-' || n, 'Product ' || n, '', n + 0.49, 500, '{{}}', now() FROM generate_series(1, {PRODUCTS}) n;
INSERT INTO shop_customer (name, email, is_active, joined) SELECT 'Customer ' || n, 'c' || n || '@example.org', true, now() FROM generate_series(0, 3) n;
INSERT INTO shop_wallet (owner, balance, changed) SELECT owner, 500, now() FROM unnest(ARRAY['planted', 'ann', 'bob']) owner;
INSERT INTO shop_doctor (name, is_on_call) VALUES ('planted one', true), ('planted two', true), ('carl', false);
"""
LONG = 'A text of several lines.\n' * 14                # above what a text of gprom holds


def connect(folder: str) -> None:
    """Configures Django for the server whose socket is in a folder. A process can do it once."""
    if not settings.configured:
        settings.configure(DATABASES={'default': {'ENGINE': 'django.db.backends.postgresql', 'HOST': folder, 'USER': 'postgres', 'NAME': 'postgres'}},
                           USE_TZ=True, TIME_ZONE='UTC', DEFAULT_AUTO_FIELD='django.db.models.BigAutoField', INSTALLED_APPS=['trial.orm'])
        django.setup()


class Shop(Application):
    """The views of the shop. Each is a request."""

    def __init__(self, folder: str) -> None:
        connect(folder)
        from django.db import connection, transaction
        from . import models
        self.models, self.transaction, self.connection = models, transaction, connection
        self.views = [self.order, self.order, self.order, self.restock, self.reprice, self.visit, self.review, self.pay, self.browse,
                      self.register, self.cancel, self.rename, self.top, self.describe, self.discount, self.spend, self.export, self.forget]

    def definitions(self) -> str:
        with self.connection.schema_editor(collect_sql=True) as editor:
            for model in self.models.ALL:
                editor.create_model(model)
        self.close()
        return '\n'.join(editor.collected_sql) + ROWS

    def close(self) -> None:
        self.connection.close()

    # Views

    def order(self, dice: random.Random) -> None:
        """An order of a few products, whose rows are locked in the order of their keys."""
        m = self.models
        with self.transaction.atomic():
            customer, _ = m.Customer.objects.get_or_create(email=f'c{dice.randrange(8)}@example.org', defaults={'name': 'New customer'})
            order = m.Order.objects.create(customer=customer, note=dice.choice(['', 'please wrap', LONG]))
            wanted = sorted(dice.sample(range(1, PRODUCTS + 1), dice.randint(1, 3)))
            lines = []
            for product in m.Product.objects.select_for_update().filter(sku__in=[f'p-{n}' for n in wanted]).order_by('pk'):
                count = dice.randint(1, 3)
                if product.stock < count:
                    raise ValueError('sold out')
                product.stock -= count
                product.save(update_fields=['stock', 'updated'])
                lines.append(m.Line(order=order, product=product, count=count, price=product.price))
            m.Line.objects.bulk_create(lines)
            order.total = sum(line.count * line.price for line in lines)
            order.save()

    def restock(self, dice: random.Random) -> None:
        """More of a product, by an F expression."""
        m = self.models
        from django.db.models import F
        m.Product.objects.filter(sku=f'p-{dice.randint(1, PRODUCTS)}').update(stock=F('stock') + dice.randint(1, 9))

    def reprice(self, dice: random.Random) -> None:
        """A product is changed and saved with all its fields, behind a lock."""
        m = self.models
        with self.transaction.atomic():
            product = m.Product.objects.select_for_update().get(sku=f'p-{dice.randint(1, PRODUCTS)}')
            product.price += Decimal('0.10')
            product.tags = {'sale': dice.random() < 0.5, 'rank': dice.randint(1, 5)}
            product.rating = dice.choice([None, 4.5, 3.25])
            product.save()

    def visit(self, dice: random.Random) -> None:
        """A counter that is made when it is not there."""
        self.models.Counter.objects.update_or_create(name=f'visits {dice.randint(1, 3)}', defaults={'value': dice.randint(1, 1000)})

    def review(self, dice: random.Random) -> None:
        """A rating, outside of a transaction."""
        m = self.models
        product = m.Product.objects.only('id', 'rating').get(sku=f'p-{dice.randint(1, PRODUCTS)}')
        m.Product.objects.filter(pk=product.pk).update(rating=dice.choice([1.5, 2.25, 5.0]))

    def pay(self, dice: random.Random) -> None:
        """The oldest new order is paid, by a wallet that is locked."""
        m = self.models
        with self.transaction.atomic():
            order = m.Order.objects.select_for_update(skip_locked=True).filter(status='new').order_by('pk').first()
            if order is None:
                return
            wallet = m.Wallet.objects.select_for_update().get(owner=dice.choice(['ann', 'bob']))
            wallet.balance -= order.total
            wallet.save()
            order.status = 'paid'
            order.save(update_fields=['status', 'updated'])

    def browse(self, dice: random.Random) -> None:
        """Pages that only read."""
        m = self.models
        from django.db.models import Count, Sum
        for order in m.Order.objects.select_related('customer', 'customer__sponsor').prefetch_related('lines')[:3]:
            sum(line.count for line in order.lines.all())
        m.Customer.objects.filter(orders__status='paid').distinct().count()
        m.Order.objects.exclude(lines__product__sku='p-1').exists()
        list(m.Customer.objects.annotate(bought=Count('orders'), spent=Sum('orders__total'))[:5])

    def register(self, dice: random.Random) -> None:
        """Several customers at once, of whom some are there already."""
        m = self.models
        names = [f'c{dice.randrange(20)}@example.org' for _ in range(3)]
        m.Customer.objects.bulk_create([m.Customer(name=f'Invited {n}', email=name) for n, name in enumerate(names)], ignore_conflicts=True)

    def cancel(self, dice: random.Random) -> None:
        """An order goes, and its lines with it."""
        m = self.models
        with self.transaction.atomic():
            order = m.Order.objects.select_for_update().filter(status='new').order_by('-pk').first()
            if order is not None:
                order.delete()

    def rename(self, dice: random.Random) -> None:
        """An update of rows that a condition on another table chooses."""
        m = self.models
        m.Customer.objects.filter(orders__status='paid').update(is_active=True)
        m.Order.objects.filter(customer__email=f'c{dice.randrange(8)}@example.org', status='paid').update(status='sent')

    def top(self, dice: random.Random) -> None:
        """An attempt within a transaction that may fail, by a savepoint."""
        m = self.models
        from django.db import IntegrityError
        with self.transaction.atomic():
            m.Counter.objects.get_or_create(name='tops')
            try:
                with self.transaction.atomic():
                    m.Counter.objects.create(name='tops', value=1)
            except IntegrityError:
                from django.db.models import F
                m.Counter.objects.filter(name='tops').update(value=F('value') + 1)

    def describe(self, dice: random.Random) -> None:
        """A long text of several lines."""
        m = self.models
        with self.transaction.atomic():
            product = m.Product.objects.select_for_update().get(sku=f'p-{dice.randint(1, PRODUCTS)}')
            product.about = LONG + str(dice.random())
            product.save(update_fields=['about', 'updated'])

    def discount(self, dice: random.Random) -> None:
        """Several products at once, each with values of its own."""
        m = self.models
        with self.transaction.atomic():
            products = list(m.Product.objects.select_for_update().order_by('pk')[:3])
            for product in products:
                product.price, product.title = max(product.price - Decimal('0.05'), Decimal(1)), f'Product {product.pk}, {dice.choice(["new", "old"])}'
            m.Product.objects.bulk_update(products, ['price', 'title'])

    def spend(self, dice: random.Random) -> None:
        """A value that a subquery computes, and conditions by Q objects."""
        m = self.models
        from django.db.models import F, OuterRef, Q, Subquery
        last = m.Order.objects.filter(customer=OuterRef('pk')).order_by('-pk').values('note')[:1]
        status = m.Order.objects.filter(customer=OuterRef('pk')).order_by('-pk').values('status')[:1]
        m.Customer.objects.filter(Q(orders__total__gt=20) | ~Q(name__startswith='Customer'), pk=dice.randint(1, 4)).update(name=Subquery(status))
        list(m.Customer.objects.annotate(last=Subquery(last)).filter(Q(last='') | Q(pk=1))[:3])
        m.Wallet.objects.filter(Q(owner='ann') | Q(owner='bob'), ~Q(balance__lt=-100)).update(balance=F('balance') - F('balance') * 0)

    def export(self, dice: random.Random) -> None:
        """Rows by a cursor of the server, and groups."""
        m = self.models
        from django.db.models import Avg, Max
        with self.transaction.atomic():
            for order in m.Order.objects.filter(status__in=['paid', 'sent']).iterator(chunk_size=2):
                order.total                           # pylint: disable=pointless-statement
        m.Product.objects.aggregate(Avg('price'), Max('stock'))
        m.Line.objects.values('product').annotate(Max('price')).order_by('product').first()

    def forget(self, dice: random.Random) -> None:
        """Rows are deleted by a condition on another table."""
        m = self.models
        m.Line.objects.filter(order__status='sent', count=1).delete()
        m.Counter.objects.filter(value__range=(900, 1000)).delete()

    # What is planted

    def lost_update(self, planted: Planted) -> None:
        """Takes money from a wallet that it has read without a lock."""
        m = self.models
        with self.transaction.atomic():
            wallet = m.Wallet.objects.get(owner='planted')
            planted.meet()
            planted.turn()
            wallet.balance -= planted.number + 1
            wallet.save()
        planted.done()

    def write_skew(self, planted: Planted) -> None:
        """A doctor goes off call, where another one is on call."""
        m = self.models
        with self.transaction.atomic():
            if m.Doctor.objects.filter(is_on_call=True).count() >= 2:
                planted.meet()
                doctor = m.Doctor.objects.get(name=('planted one', 'planted two')[planted.number])
                doctor.is_on_call = False
                doctor.save()
        planted.done()
