"""Tables of row versions that lie on other servers, which the coordinator reaches by postgres_fdw."""
import re

from .window import EVERYTHING

TABLE = re.compile(r'^CREATE TABLE (\w+_versions) (\(.*\));$', re.M)


class Shards:
    """The servers that have the rows. A row version is on that which the hash of its row's identity says."""

    def __init__(self, cluster, shards):
        self.sessions = [shard.control for shard in shards]
        cluster.control.execute('CREATE SCHEMA shards; CREATE EXTENSION postgres_fdw SCHEMA shards')
        for at, shard in enumerate(shards):
            cluster.control.execute(f"CREATE SERVER shard_{at} FOREIGN DATA WRAPPER postgres_fdw OPTIONS (host '{shard.folder}', dbname 'postgres', "
                                    "fetch_size '10000', async_capable 'true')")
            cluster.control.execute(f"CREATE USER MAPPING FOR postgres SERVER shard_{at} OPTIONS (user 'postgres')")

    def split(self, tables):
        """Makes the tables on the shards. Gives the text for the coordinator, whose INSERTs go through its partitions."""
        for session in self.sessions:
            session.execute(EVERYTHING)
            for name, columns in TABLE.findall(tables):
                session.execute(f'CREATE TABLE {name} {columns}')
        return TABLE.sub(self.partitioned, tables)

    def partitioned(self, table):
        """The statements that make a table of the coordinator."""
        name, columns = table.groups()
        parts = [f'CREATE FOREIGN TABLE {name}_{at} PARTITION OF {name} FOR VALUES WITH (MODULUS {len(self.sessions)}, REMAINDER {at}) '
                 f"SERVER shard_{at} OPTIONS (table_name '{name}');" for at in range(len(self.sessions))]
        return ' '.join([f'CREATE TABLE {name} {columns} PARTITION BY HASH ("$id");', *parts])
