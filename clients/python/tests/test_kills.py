"""The program is killed at random moments under 1,000 requests, again and again. Behind each kill the store is opened anew: what
was answered is there, what was under way is there wholly or not at all, and nothing else is."""
import os
import random
import signal
import threading
import unittest

from common import StoreCase, pma

SEED, KILLS, REQUESTS = 7, 40, 1000


class KillTest(StoreCase):
    def test_kills(self):
        self.kill_again_and_again("one by one", one_by_one, 0.05)

    def test_kills_of_requests_sent_ahead(self):
        self.kill_again_and_again("sent ahead", sent_ahead, 0.02)

    def kill_again_and_again(self, how, work, seconds):
        """Each kill comes at a random moment of that many seconds."""
        r, held, told = random.Random(SEED), {}, []
        for _ in range(KILLS):
            store = self.open("c", height=8)
            killer = threading.Timer(r.uniform(0, seconds), os.kill, (store.pid, signal.SIGKILL))
            killer.start()
            answered, held, maybe = work(store, r, held)
            killer.join()
            try:
                store.close()
            except pma.Ended:
                pass
            with self.open("r") as store:
                found = dict(store)
                self.assertEqual(store.check().records, len(found))
            self.assertIn(found, [held, maybe])
            told.append(f"{answered} {'-' if maybe == held else 'old' if found == held else 'new'}")
            held = found
        print(f"test_kills, {how}: requests answered, and how the change under way was found: {', '.join(told)}")


def one_by_one(store, r, held):
    """Makes requests until the program dies: how many were answered, what the store holds by them, and what with the change that
    was under way."""
    for answered in range(REQUESTS):
        changes = some_changes(r, r.choice([1, 1, 5]))
        after = changed(held, changes)
        try:
            if r.random() < 0.2:
                key = r.choice(list(changes))
                assert store.get(key) == held.get(key)
            else:
                make(store, changes)
                held = after
        except pma.OutcomeUnknown:
            return answered, held, after
        except pma.Ended:
            return answered, held, held
    return REQUESTS, held, held


def sent_ahead(store, r, held):
    """The same of that many changes that are sent at once, each of a key of its own."""
    changes = {b"%d" % n: value for n, value in enumerate(some_changes(r, REQUESTS, REQUESTS).values())}
    pipeline = store.pipeline()
    answers = [pipeline.remove(key) if value is None else pipeline.put(key, value) for key, value in changes.items()]
    try:
        pipeline.__exit__(None, None, None)
    except pma.Error:
        pass
    for answered, (answer, (key, value)) in enumerate(zip(answers, changes.items())):
        after = changed(held, {key: value})
        try:
            answer.result()
            held = after
        except pma.OutcomeUnknown:
            return answered, held, after
        except pma.Error:
            return answered, held, held
    return REQUESTS, held, held


def some_changes(r, count, keys=400):
    """That many keys with new values, None for a removal."""
    return {b"%d" % n: r.choice([None, b"", b"%d" % r.randrange(10**6)]) for n in r.sample(range(keys), count)}


def changed(held, changes):
    return {key: value for key, value in {**held, **changes}.items() if value is not None}


def make(store, changes):
    """Makes these changes, None being a removal: one by itself, more as a batch."""
    if len(changes) > 1:
        with store.batch() as batch:
            for key, value in changes.items():
                batch.remove(key) if value is None else batch.put(key, value)
        return
    for key, value in changes.items():
        if value is None:
            store.pop(key, None)
        else:
            store[key] = value


if __name__ == "__main__":
    unittest.main()
