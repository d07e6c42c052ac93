"""The sink in Kafka, by confluent-kafka: a topic a table, a message a change. The changes of a batch, the ends of its
transactions and the new place are one transaction of Kafka."""

import json
import time
from typing import Any, Dict, List, Optional, Tuple

try:
    from confluent_kafka import Consumer, KafkaError, KafkaException, Message, Producer, TopicPartition
    from confluent_kafka.admin import AdminClient, ConfigResource, NewTopic
except ImportError as missing:
    from .faults import USAGE, Fault
    raise Fault('this python3 has no confluent_kafka, which Kafka needs: python3-confluent-kafka of Debian, or confluent-kafka '
                'of PyPI', USAGE) from missing

from .description import Table
from .faults import RETRY, USAGE, Fault
from .feed import LARGE, LINE, START, Item, Transaction, place_text, print_set, read_set
from .options import Options
from .report import Report
from .sink import Place, SqlSink, Target

# Seconds for a request, and milliseconds of a transaction of Kafka: the most that a broker takes unless it is set otherwise.
WAIT, TRANSACTION_MS = 60, 900_000
LONGEST_TOPIC = 249
PLACE, ENDS = 'place', 'transactions'
OPS = {'insert': 'c', 'update': 'u', 'delete': 'd', 'truncate': 't'}
ALLOWED = frozenset('abcdefghijklmnopqrstuvwxyzABCDEFGHIJKLMNOPQRSTUVWXYZ0123456789_-')
encode = json.JSONEncoder(ensure_ascii=False, separators=(',', ':')).encode
Headers = List[Tuple[str, bytes]]


def escaped(name: str) -> str:
    """A name in that of a topic: letters, digits, `_` and `-` as they are, any other byte as `.` and two digits."""
    return ''.join(chr(byte) if chr(byte) in ALLOWED else f'.{byte:02x}' for byte in name.encode())


def compact(value: Any) -> bytes:
    return encode(value).encode()


class Topic(Target):
    """The topic of a table."""

    def __init__(self, table: Table, prefix: str) -> None:
        super().__init__(table)
        self.topic = f'{prefix}.{escaped(table.schema)}.{escaped(table.name)}'
        # Without a key there is one partition, so that an insert stands before its delete.
        self.partition = -1 if table.keys else 0
        # The columns of the key, each with what stands before its value.
        self.key_parts = [(('{' if at == 0 else ',') + encode(name) + ':', name) for at, name in enumerate(table.key_names)]

    def key_of(self, row: Dict[str, Any]) -> Optional[bytes]:
        """The key of a row as JSON; nothing where the table has none."""
        if not self.key_parts:
            return None
        text = ''
        for begin, name in self.key_parts:
            value = row[name]
            text += begin + (str(value) if type(value) is int else encode(value))
        return (text + '}').encode()


class KafkaSink(SqlSink[Topic]):
    """A cluster of Kafka."""

    keeps_lines = True
    # Each commit waits for the answers of the brokers.
    batch_bytes = 2 * LARGE

    def __init__(self, described: Dict[Tuple[str, str], Table], wanted: Dict[Tuple[str, str], Table], options: Options,
                 report: Report) -> None:
        super().__init__(described, options)
        self.report, self.where = report, 'the place in Kafka'
        if not options.topics or {*options.topics} - ALLOWED - {'.'}:
            raise Fault('--topics PREFIX is needed: letters, digits, a point, _ and -', USAGE)
        self.targets = {place: Topic(table, options.topics) for place, table in wanted.items()}
        self.place_topic, self.ends_topic = f'{options.topics}.{PLACE}', f'{options.topics}.{ENDS}'
        for target in self.targets.values():
            if len(target.topic) > LONGEST_TOPIC:
                raise Fault(f'{target.title}: its topic would have {len(target.topic)} characters, and {LONGEST_TOPIC} are the '
                            f'most: a shorter --topics', USAGE)
        self.settings: Dict[str, Any] = {'bootstrap.servers': options.to}
        for word in options.setting:
            name, sign, value = word.partition('=')
            if not sign:
                raise Fault(f'--setting {word}: NAME=VALUE is meant', USAGE)
            self.settings[name] = value
        # Why a message was not taken; why the producer can do nothing more; when the transaction of Kafka began.
        self.failure: Optional[Fault] = None
        self.ended: Optional[Fault] = None
        self.begun = time.monotonic()
        self.is_feed = options.envelope == 'feed'
        try:
            self.begin()
        except KafkaException as error:
            raise self.failed(error) from error

    def failed(self, error: Exception) -> Fault:
        """A fault of the cluster."""
        why = error.args[0] if error.args else error
        text = why.str() if isinstance(why, KafkaError) else str(why)
        if isinstance(why, KafkaError) and why.code() in (KafkaError._FENCED, KafkaError.INVALID_PRODUCER_EPOCH):
            longest = int(self.settings.get('transaction.timeout.ms', TRANSACTION_MS)) / 1000
            if time.monotonic() - self.begun > longest:
                return Fault(f'a transaction has taken longer than {longest:.0f} s, after which Kafka gives it up ({text}): raise '
                             f'transaction.timeout.ms by --setting, and transaction.max.timeout.ms of the brokers')
            return Fault(f'a newer run has this sink, and has ended this one ({text})')
        if isinstance(why, KafkaError) and why.code() in (KafkaError.MSG_SIZE_TOO_LARGE, KafkaError.RECORD_LIST_TOO_LARGE):
            return Fault(f'a row is larger than Kafka takes ({text}): raise message.max.bytes by --setting and '
                         f'max.message.bytes of its topic')
        return Fault(f'Kafka says: {text}', RETRY)

    # The beginning

    def begin(self) -> None:
        """Ends what an older run has begun, and only then reads the place."""
        self.producer = Producer({'transactional.id': self.options.name, 'transaction.timeout.ms': TRANSACTION_MS,
                                  'partitioner': 'murmur2_random',
                                  'linger.ms': 20, 'queue.buffering.max.kbytes': 8192, 'compression.type': 'lz4',
                                  'delivery.report.only.error': True, 'on_delivery': self.delivered, **self.settings})
        if not self.options.unchecked:
            self.make_topics()
        self.producer.init_transactions(WAIT)
        found = self.last_place()
        if found is None:
            if not self.options.new:
                self.refuse_messages()
            found = {'place': '', 'executed': '', 'partitions': self.options.partitions, 'tables': self.tables()}
        if found['partitions'] != self.options.partitions:
            raise Fault(f'the topics have {found["partitions"]} partitions, which may not change, since a key would go to '
                        f'another one: --partitions {found["partitions"]}')
        self.others(self.options.name, False, {place: text for *names, text in found['tables']
                                               for place in [(names[0], names[1])]})
        executed: str = found['executed']
        self.held = (found['place'] or place_text(START, read_set(executed), ''), executed)

    def tables(self) -> List[List[str]]:
        """What is kept of the tables: that they are wanted; other columns make other messages."""
        return [[*place, ''] for place in sorted(self.targets)]

    def make_topics(self) -> None:
        """Makes topics that are missing, and looks whether that of the place keeps its messages."""
        admin = AdminClient(self.settings)
        there = admin.list_topics(timeout=WAIT).topics
        keyed = {target.topic: self.options.partitions if target.table.keys else 1 for target in self.targets.values()}
        missing = [NewTopic(name, count, -1, config={'retention.ms': '-1'})
                   for name, count in {**keyed, self.ends_topic: 1}.items() if name not in there]
        if self.place_topic not in there:
            missing.append(NewTopic(self.place_topic, 1, -1, config={'cleanup.policy': 'compact'}))
        for made in admin.create_topics(missing, request_timeout=WAIT).values() if missing else []:
            made.result()
        settings = admin.describe_configs([ConfigResource('topic', self.place_topic)], request_timeout=WAIT)
        policy = next(iter(settings.values())).result()['cleanup.policy'].value
        if policy != 'compact':
            raise Fault(f'the topic {self.place_topic} has cleanup.policy {policy}, by which the place would be deleted: set it '
                        f'to compact')
        for name, count in keyed.items():
            if name in there and len(there[name].partitions) != count:
                raise Fault(f'the topic {name} has {len(there[name].partitions)} partitions, and {count} are asked for: '
                            f'--partitions, or another --topics')

    def consumer(self) -> Consumer:
        return Consumer({'group.id': f'{self.options.name}-place', 'isolation.level': 'read_committed',
                         'enable.auto.commit': False, 'auto.offset.reset': 'earliest',
                         'enable.partition.eof': True, 'fetch.wait.max.ms': 10, **self.settings})

    def last_place(self) -> Optional[Dict[str, Any]]:
        """The last place of this sink that was committed."""
        consumer = self.consumer()
        found: Optional[Dict[str, Any]] = None
        try:
            consumer.assign([TopicPartition(self.place_topic, 0, 0)])
            begun = time.monotonic()
            while time.monotonic() - begun < WAIT:
                message: Optional[Message] = consumer.poll(1)
                if message is None:
                    continue
                error = message.error()
                if error is None:
                    if message.key() == self.options.name.encode():
                        found = json.loads(message.value())
                elif error.code() == KafkaError._PARTITION_EOF:
                    return found
                elif error.code() != KafkaError.UNKNOWN_TOPIC_OR_PART:
                    raise KafkaException(error)
            raise Fault(f'the place was not read from {self.place_topic} within {WAIT} s', RETRY)
        finally:
            consumer.close()

    def refuse_messages(self) -> None:
        """Without a place no topic may have messages: they would come again."""
        consumer = self.consumer()
        try:
            there = consumer.list_topics(timeout=WAIT).topics
            for target in self.targets.values():
                for partition in there[target.topic].partitions if target.topic in there else []:
                    low, high = consumer.get_watermark_offsets(TopicPartition(target.topic, partition), timeout=WAIT)
                    if high > low:
                        raise Fault(f'the topic {target.topic} has messages, and there is no place of {self.options.name}: '
                                    f'--name, another --topics, or --new')
        finally:
            consumer.close()

    # Changes

    def write(self, batch: List[Transaction], after: Place, is_careful: bool) -> None:
        if self.ended:
            raise self.ended
        self.failure, self.begun = None, time.monotonic()
        try:
            self.producer.begin_transaction()
            for transaction in batch:
                self.send(transaction)
            place, executed = after
            value = {'place': place, 'executed': executed, 'partitions': self.options.partitions, 'tables': self.tables()}
            self.produce(self.place_topic, self.options.name.encode(), compact(value), [], 0)
            self.commit()
        except KafkaException as error:
            # Where a message was refused, that says more.
            failure = self.failure or self.failed(error)
            if error.args[0].fatal():
                self.ended = failure
            else:
                self.abort()
            raise failure from error
        except Fault:
            self.abort()
            raise

    def commit(self) -> None:
        """Commits; an answer that does not come is asked for again."""
        begun = time.monotonic()
        while True:
            try:
                self.producer.commit_transaction(WAIT)
                break
            except KafkaException as error:
                why = error.args[0]
                if not why.retriable() or time.monotonic() - begun > self.options.connect_retry:
                    raise
        if self.failure:
            raise self.failure

    def abort(self) -> None:
        try:
            self.producer.abort_transaction(WAIT)
        except KafkaException as error:
            self.ended = self.failed(error)
            self.report.say(str(self.ended))

    def send(self, transaction: Transaction) -> None:
        """The messages of a transaction, each with the place that it has in it, and its end."""
        count, form, targets, is_feed = len(transaction), transaction.form, self.targets, self.is_feed
        gtid, changes = ('gtid', transaction.kept.gtid.encode()), ('changes', str(count).encode())
        for change in transaction:
            target = targets.get((change['schema'], change['table']))
            if target is None:
                self.leave_out(change)
                continue
            before, after = change.get('before'), change.get('after')
            if before is not None:
                target.table.check(before, form)
            if after is not None:
                target.table.check(after, form)
            old = target.key_of(before) if before else None
            key = target.key_of(after) if after else old
            headers = [gtid, ('n', str(change.get('n', '')).encode()), changes]
            if old and key and old != key:
                self.move(target, change, old, key, headers, transaction)
                continue
            value = change[LINE][:-1] if is_feed else self.value(change, before, after, transaction)
            if change['type'] == 'truncate':
                # Each partition has rows that go.
                for partition in range(self.options.partitions if target.table.keys else 1):
                    self.produce(target.topic, None, value, headers, partition)
                continue
            self.produce(target.topic, key, value, headers, target.partition)
            if old and not after:
                self.produce(target.topic, old, None, headers)
        for gtids in transaction.adds:
            value = {'gtid': print_set(gtids), 'changes': count,
                     **{name: it for name, it in transaction.commit.items() if name in ('committed_us', 'server', 'xid')}}
            self.produce(self.ends_topic, None, compact(value), [], 0)

    def move(self, target: Topic, change: Item, old: bytes, new: bytes, headers: Headers, transaction: Transaction) -> None:
        """The messages of an update that changes the key: a delete and an insert, each of which names the other key."""
        before, after, to_new = change['before'], change['after'], [*headers, ('new_key', new)]
        self.produce(target.topic, old, self.value({**change, 'type': 'delete'}, before, None, transaction), to_new)
        self.produce(target.topic, old, None, to_new)
        self.produce(target.topic, new, self.value({**change, 'type': 'insert'}, None, after, transaction),
                     [*headers, ('old_key', old)])

    def value(self, change: Item, before: Any, after: Any, transaction: Transaction) -> bytes:
        """What a message has where it is not the line as it is."""
        if self.is_feed:
            kept = {name: it for name, it in change.items() if name not in (LINE, 'before', 'after')}
            return compact({**kept, **({'before': before} if before else {}), **({'after': after} if after else {})})
        committed = transaction.commit.get('committed_us')
        source = {'connector': 'mrep', 'name': self.options.name, 'db': change['schema'], 'table': change['table'],
                  'gtid': change['gtid'], 'row': change.get('n'),
                  'ts_ms': change['ts'] * 1000 if 'ts' in change else None}
        return compact({'before': before, 'after': after, 'source': source, 'op': OPS[change['type']], 'ts_ms': committed // 1000
                        if committed else None})

    def produce(self, topic: str, key: Optional[bytes], value: Optional[bytes], headers: Headers, partition: int = -1) -> None:
        while True:
            try:
                self.producer.produce(topic, value, key, partition, headers=headers)
                return
            except BufferError:
                self.producer.poll(0.1)

    def delivered(self, error: Optional[KafkaError], message: Message) -> None:
        # What is purged was given up for another message.
        if error and not self.failure and error.code() not in (KafkaError._PURGE_QUEUE, KafkaError._PURGE_INFLIGHT):
            self.failure = self.failed(KafkaException(error))
