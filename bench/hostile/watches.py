"""A client with more watches than anybody needs."""
import time

from cluster import until
from stage import staged
from wire import CREATE, SET_WATCHES, Client, create, watches


def path_of(number):
    return b"/" + b"w" * 991 + b"%08d" % number


def forty_thousand_watches_of_one_client(program, work):
    """400 frames of 100 KB, each with 100 paths of 1,000 bytes that are absent; then one of the paths is made. An etcd without the
    processor time for that looks up as many as it can within four minutes."""
    with staged(program, work) as it:
        client = Client(it.port, timeout=40_000, seconds=240)
        count, since = 0, time.time()
        while count < 40_000 and time.time() < since + 240:
            client.does(SET_WATCHES, watches(exists=[path_of(one) for one in range(count, count + 100)]))
            count += 100
        took, held = time.time() - since, it.meter.now()
        made = path_of(count * 3 // 4)
        maker = Client(it.port)
        since = time.time()
        maker.does(CREATE, create(made))
        client.stream.settimeout(10)
        notice = client.notice()
        told = time.time() - since
        assert made in notice, notice
        client.end()
        assert until(lambda: it.meter.now() < max(held / 2, 5), 10), it.meter.now()
        it.bounds(count * 2_200 / 1e6 + 40)
        return it.told(f"{count} armed in {took:.0f} s, {held * 1e6 / count:.0f} bytes a watch; told after {1000 * told:.0f} ms",
                       f"{it.meter.now():.0f} MB after it left")


def a_frame_of_many_watches(program, work):
    """One frame with 40,000 paths of 20 bytes that are absent."""
    with staged(program, work) as it:
        client = Client(it.port, timeout=40_000, seconds=500)
        since, used = time.time(), it.meter.seconds()
        client.does(SET_WATCHES, watches(exists=[b"/short-%013d" % one for one in range(40_000)]))
        took, used, held = time.time() - since, it.meter.seconds() - used, it.meter.now()
        it.bounds(120)
        return it.told(f"answered after {took:.0f} s, {used:.0f} s of processor, {held * 1e6 / 40_000:.0f} bytes a watch")


checks = [forty_thousand_watches_of_one_client, a_frame_of_many_watches]
