"""A bank on SQLAlchemy's ORM, under load: sessions that flush, relationships that load, and the statements of its PostgreSQL dialect."""
import enum
import random
from decimal import Decimal

import sqlalchemy as sa
from sqlalchemy import orm
from sqlalchemy.dialects.postgresql import JSONB, insert
from sqlalchemy.schema import CreateTable

from .load import Application, Planted

ACCOUNTS = 8
STATEMENT = 'Sent:\n' + 'a line of the letter to the client\n' * 10
ROWS = f"""
INSERT INTO client (name, email, is_blocked) SELECT 'Client ' || n, 'client' || n || '@example.org', false FROM generate_series(0, {ACCOUNTS // 2 - 1}) n;
INSERT INTO account (client_id, kind, balance, rate, version)
SELECT (n + 1) / 2, (CASE n % 2 WHEN 1 THEN 'CURRENT' ELSE 'SAVINGS' END)::account_kind, 1000, 1.5, 1 FROM generate_series(1, {ACCOUNTS}) n;
INSERT INTO tag (name) VALUES ('rent'), ('food'), ('other');
INSERT INTO credit_limit (name, amount, is_used) SELECT name, 500, false FROM unnest(ARRAY['planted one', 'planted two', 'planted money']) name;
"""
Base = orm.declarative_base()


class Kind(enum.Enum):
    """What an account is for."""
    CURRENT = 'current'
    SAVINGS = 'savings'


class Client(Base):
    """Who has accounts."""
    __tablename__ = 'client'
    id = sa.Column(sa.Integer, primary_key=True)
    name = sa.Column(sa.String(60), nullable=False)
    email = sa.Column(sa.String(120), unique=True, nullable=False)
    is_blocked = sa.Column(sa.Boolean, nullable=False, default=False)
    created = sa.Column(sa.DateTime(timezone=True), server_default=sa.func.now(), nullable=False)
    accounts = orm.relationship('Account', back_populates='client', order_by='Account.id')


class Account(Base):
    """Money of a client; `version` counts the changes, so that none is lost."""
    __tablename__ = 'account'
    id = sa.Column(sa.Integer, primary_key=True)
    client_id = sa.Column(sa.ForeignKey('client.id'), nullable=False, index=True)
    kind = sa.Column(sa.Enum(Kind, name='account_kind'), nullable=False)
    balance = sa.Column(sa.Numeric(12, 2), nullable=False, default=0)
    rate = sa.Column(sa.Float)
    changed = sa.Column(sa.DateTime(timezone=True), server_default=sa.func.now(), onupdate=sa.func.now())
    version = sa.Column(sa.Integer, nullable=False)
    client = orm.relationship('Client', back_populates='accounts')
    __mapper_args__ = {'version_id_col': version}
    __table_args__ = (sa.CheckConstraint('balance >= -1000', name='no_more_debt'),)


class Transfer(Base):
    """Money that went from an account to another one."""
    __tablename__ = 'transfer'
    id = sa.Column(sa.BigInteger, primary_key=True)
    source_id = sa.Column(sa.ForeignKey('account.id'), nullable=False)
    target_id = sa.Column(sa.ForeignKey('account.id'), nullable=False)
    amount = sa.Column(sa.Numeric(12, 2), nullable=False)
    made = sa.Column(sa.DateTime(timezone=True), server_default=sa.func.now())
    details = sa.Column(JSONB, default=dict)
    source = orm.relationship('Account', foreign_keys=[source_id])
    target = orm.relationship('Account', foreign_keys=[target_id])
    tags = orm.relationship('Tag', secondary='transfer_tag')


class Tag(Base):
    """A word for transfers."""
    __tablename__ = 'tag'
    id = sa.Column(sa.Integer, primary_key=True)
    name = sa.Column(sa.String(30), unique=True, nullable=False)


transfer_tag = sa.Table('transfer_tag', Base.metadata,
                        sa.Column('transfer_id', sa.ForeignKey('transfer.id', ondelete='CASCADE'), primary_key=True),
                        sa.Column('tag_id', sa.ForeignKey('tag.id'), primary_key=True))


class Letter(Base):
    """A long text to a client."""
    __tablename__ = 'letter'
    id = sa.Column(sa.Integer, primary_key=True)
    client_id = sa.Column(sa.ForeignKey('client.id'), nullable=False)
    body = sa.Column(sa.Text, nullable=False)
    is_sent = sa.Column(sa.Boolean, nullable=False, server_default=sa.false())


class Daily(Base):
    """A total of a day and a kind, written by INSERT .. ON CONFLICT."""
    __tablename__ = 'daily'
    day = sa.Column(sa.Date, primary_key=True)
    kind = sa.Column(sa.Enum(Kind, name='account_kind'), primary_key=True)
    count = sa.Column(sa.Integer, nullable=False, default=0)
    total = sa.Column(sa.Numeric(14, 2), nullable=False, default=0)


class Limit(Base):
    """A limit of a client, for what is planted."""
    __tablename__ = 'credit_limit'
    id = sa.Column(sa.Integer, primary_key=True)
    name = sa.Column(sa.String(30), nullable=False)
    amount = sa.Column(sa.Numeric(10, 2), nullable=False)
    is_used = sa.Column(sa.Boolean, nullable=False, default=False)


class Bank(Application):
    """The services of the bank. Each has a session of its own."""

    def __init__(self, folder: str, level: str = 'READ COMMITTED') -> None:
        self.engine = sa.create_engine('postgresql+psycopg2://postgres@/postgres', connect_args={'host': folder}, isolation_level=level, pool_size=16)
        self.session = orm.sessionmaker(self.engine)
        self.views = [self.transfer, self.transfer, self.transfer, self.deposit, self.correct, self.open, self.write, self.send, self.report,
                      self.count, self.tag, self.block, self.forget, self.interest, self.adjust, self.merge, self.clean]

    def definitions(self) -> str:
        dialect = self.engine.dialect
        kinds = f"CREATE TYPE account_kind AS ENUM ({', '.join(repr(kind.name) for kind in Kind)});"
        return kinds + ''.join(str(CreateTable(table).compile(dialect=dialect)) + ';' for table in Base.metadata.sorted_tables) + ROWS

    def close(self) -> None:
        """Sessions are closed where they are used."""

    def finish(self) -> None:
        self.engine.dispose()

    # Services

    def transfer(self, dice: random.Random) -> None:
        """Money goes from an account to another one, both locked in the order of their keys."""
        with self.session.begin() as session:
            one, two = sorted(dice.sample(range(1, ACCOUNTS + 1), 2))
            accounts = session.execute(sa.select(Account).where(Account.id.in_([one, two])).order_by(Account.id).with_for_update()).scalars().all()
            source, target = accounts if dice.random() < 0.5 else accounts[::-1]
            amount = Decimal(dice.randint(1, 4000)) / 100
            source.balance -= amount
            target.balance += amount
            made = Transfer(source=source, target=target, amount=amount, details={'by': dice.choice(['web', 'phone']), 'lines': [1, 2]})
            made.tags = session.execute(sa.select(Tag).where(Tag.name == dice.choice(['rent', 'food', 'other']))).scalars().all()
            session.add(made)

    def deposit(self, dice: random.Random) -> None:
        """An update by a term of SQL."""
        with self.session.begin() as session:
            session.execute(sa.update(Account).where(Account.id == dice.randint(1, ACCOUNTS)).values(
                balance=Account.balance + dice.randint(1, 50), version=Account.version + 1).execution_options(synchronize_session=False))

    def correct(self, dice: random.Random) -> None:
        """An account that is read without a lock: its version column tells of another writer."""
        with self.session.begin() as session:
            account = session.get(Account, dice.randint(1, ACCOUNTS))
            account.balance += Decimal('0.01')
            account.rate = dice.choice([None, 0.25, 1.75])

    def open(self, dice: random.Random) -> None:
        """A client with an account, if there is none of this address."""
        with self.session.begin() as session:
            email = f'client{dice.randrange(30)}@example.org'
            if session.execute(sa.select(Client).where(Client.email == email)).scalar_one_or_none() is None:
                client = Client(name='New client', email=email)
                client.accounts.append(Account(kind=dice.choice(list(Kind))))
                session.add(client)

    def write(self, dice: random.Random) -> None:
        """Letters to a client, several at once."""
        with self.session.begin() as session:
            client = session.get(Client, dice.randint(1, ACCOUNTS // 2))
            session.add_all([Letter(client_id=client.id, body=STATEMENT + str(dice.random())) for _ in range(dice.randint(1, 3))])

    def send(self, dice: random.Random) -> None:
        """The letters that wait."""
        with self.session.begin() as session:
            for letter in session.execute(sa.select(Letter).where(Letter.is_sent.is_(False)).with_for_update(skip_locked=True).limit(3)).scalars():
                letter.is_sent = True

    def report(self, dice: random.Random) -> None:
        """Pages that only read."""
        with self.session() as session:
            for client in session.execute(sa.select(Client).options(orm.joinedload(Client.accounts))).unique().scalars():
                sum(account.balance for account in client.accounts)
            for made in session.execute(sa.select(Transfer).options(orm.selectinload(Transfer.tags)).order_by(Transfer.id.desc()).limit(5)).scalars():
                made.source.client.name                # pylint: disable=expression-not-assigned
            session.execute(sa.select(Account.kind, sa.func.sum(Account.balance)).group_by(Account.kind)).all()
            session.execute(sa.select(Client.id).where(Client.accounts.any(Account.kind == Kind.SAVINGS))).all()

    def count(self, dice: random.Random) -> None:
        """A total that is made or added to."""
        with self.session.begin() as session:
            kind, amount = dice.choice(list(Kind)), Decimal(dice.randint(1, 500)) / 100
            made = insert(Daily).values(day=sa.func.current_date(), kind=kind, count=1, total=amount)
            session.execute(made.on_conflict_do_update(index_elements=[Daily.day, Daily.kind],
                                                       set_={'count': Daily.count + 1, 'total': Daily.total + made.excluded.total}))

    def tag(self, dice: random.Random) -> None:
        """A word that may be there already."""
        with self.session.begin() as session:
            session.execute(insert(Tag).values(name=f'tag {dice.randrange(6)}').on_conflict_do_nothing())

    def block(self, dice: random.Random) -> None:
        """An update of rows that a query chooses."""
        with self.session.begin() as session:
            poor = sa.select(Account.client_id).where(Account.balance < -900)
            session.execute(sa.update(Client).where(Client.id.in_(poor)).values(is_blocked=True).execution_options(synchronize_session=False))
            session.execute(sa.update(Client).where(Client.email == f'client{dice.randrange(4)}@example.org').values(is_blocked=False))

    def forget(self, dice: random.Random) -> None:
        """A transfer is deleted, with its tags."""
        with self.session.begin() as session:
            made = session.execute(sa.select(Transfer).order_by(Transfer.id).limit(1).with_for_update()).scalar_one_or_none()
            if made is not None:
                session.delete(made)

    def interest(self, dice: random.Random) -> None:
        """Savings grow by a constant."""
        with self.session.begin() as session:
            account = session.execute(sa.select(Account).where(Account.id == 2 * dice.randint(1, ACCOUNTS // 2)).with_for_update()).scalar_one()
            with session.begin_nested():
                account.balance = account.balance + 1

    def adjust(self, dice: random.Random) -> None:
        """Several rows by one statement with lists of values, and a CASE."""
        with self.session.begin() as session:
            session.execute(sa.select(Account.id).order_by(Account.id).with_for_update()).all()
            session.bulk_update_mappings(Letter, [{'id': n, 'is_sent': True} for n, in session.execute(sa.select(Letter.id).limit(2))])
            session.execute(sa.update(Account).values(rate=sa.case((Account.kind == Kind.SAVINGS, 1.25), else_=Account.rate),
                                                      version=Account.version + 1).execution_options(synchronize_session=False))

    def merge(self, dice: random.Random) -> None:
        """An object from elsewhere becomes a row, or changes the one that is there."""
        with self.session.begin() as session:
            session.merge(Tag(id=100 + dice.randrange(4), name=f'merged {dice.randrange(1000)}'))

    def clean(self, dice: random.Random) -> None:
        """Rows are deleted by a subquery, and by a text that begins so."""
        with self.session.begin() as session:
            used = sa.select(transfer_tag.c.tag_id)
            session.execute(sa.delete(Tag).where(Tag.id.not_in(used), Tag.name.like('tag%')).execution_options(synchronize_session=False))
            session.execute(sa.delete(Letter).where(Letter.is_sent, Letter.id < dice.randrange(20)).execution_options(synchronize_session=False))

    # What is planted

    def lost_update(self, planted: Planted) -> None:
        """Takes a part of a limit that it has read without a lock."""
        with self.session.begin() as session:
            limit = session.execute(sa.select(Limit).where(Limit.name == 'planted money')).scalar_one()
            planted.meet()
            planted.turn()
            limit.amount -= planted.number + 1
        planted.done()

    def write_skew(self, planted: Planted) -> None:
        """One of two limits is used, if the other one is not."""
        with self.session.begin() as session:
            used = session.execute(sa.select(sa.func.count()).where(Limit.is_used).select_from(Limit)).scalar_one()
            planted.meet()
            if used == 0:
                limit = session.execute(sa.select(Limit).where(Limit.name == ('planted one', 'planted two')[planted.number])).scalar_one()
                limit.is_used = True
        planted.done()
