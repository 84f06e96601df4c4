"""Shows that in asyncio each ticket ends, and that the event loop goes on while the sidecar is asked."""

import asyncio
import threading
import time
import unittest.mock
from collections.abc import Coroutine
from concurrent.futures import ThreadPoolExecutor
from typing import Any

import delvoumi
import httpx
from delvoumi.httpx import BreakerTransport
from test_client import Case
from testbed import Relay, wait_for


class InAsyncio(Case):
    def client(self) -> httpx.AsyncClient:
        return httpx.AsyncClient(transport=BreakerTransport(self.breaker, httpx.AsyncHTTPTransport()))

    def test_httpx_reports_each_response(self) -> None:
        async def ask() -> list[int]:
            async with self.client() as client:
                responses = await asyncio.gather(*(client.get(f"{self.url}/{at}/20") for at in (200, 500, 200, 503)))
                async with client.stream("POST", f"{self.url}/201/0", content=b"hello") as streamed:
                    self.assertEqual(b"".join([part async for part in streamed.aiter_bytes()]), b'{"status":201}')
                return [response.status_code for response in responses]

        self.assertEqual(asyncio.run(ask()), [200, 500, 200, 503])
        verdicts = sorted(reply["verdict"] for reply in self.replies("report"))
        self.assertEqual(verdicts, ["failure"] * 2 + ["success"] * 3)
        self.assertEqual(self.server.state("open"), [0])

    def test_a_call_that_is_not_permitted_is_not_made(self) -> None:
        self.server.move("FORCED_OPEN")

        async def ask() -> None:
            async with self.client() as client:
                await client.get("http://127.0.0.1:9/")

        with self.assertRaises(delvoumi.CallNotPermitted):
            asyncio.run(ask())

    def test_a_transport_of_the_other_kind_is_told(self) -> None:
        async def ask() -> None:
            async with httpx.AsyncClient(transport=BreakerTransport(self.breaker, httpx.HTTPTransport())) as client:
                await client.get(self.url)

        with self.assertRaisesRegex(TypeError, r"has to be made with httpx\.AsyncHTTPTransport\(\)"):
            asyncio.run(ask())
        with httpx.Client(transport=BreakerTransport(self.breaker, httpx.AsyncHTTPTransport())) as client:
            with self.assertRaisesRegex(TypeError, r"has to be made with httpx\.HTTPTransport\(\)"):
                client.get(self.url)
        self.assertEqual(self.events(), [])

    def test_outside_of_asyncio_it_is_told(self) -> None:
        entering = self.breaker.call().__aenter__()
        with self.assertRaisesRegex(RuntimeError, "asyncio alone"):
            entering.send(None)

    def test_the_block_ends_its_ticket_as_without_asyncio(self) -> None:
        async def blocks() -> None:
            async with self.breaker.call() as call:
                call.outcome(status=503)
            self.assertEqual(call.result, "failure")
            with self.assertRaises(ValueError):
                async with self.breaker.call() as call:
                    raise ValueError("the response makes no sense")
            self.assertEqual(call.result, "failure")
            with self.assertRaises(LookupError):
                async with self.breaker.call(release_on=LookupError) as call:
                    raise LookupError
            self.assertEqual(call.result, "released")
            with self.assertRaises(delvoumi.BadOutcome):
                async with self.breaker.call() as call:
                    call.outcome(status="200")

        asyncio.run(blocks())
        self.assertEqual(self.events(), ["acquire", "report"] * 2 + ["acquire", "release"] * 2)
        self.assertEqual(self.server.state("open"), [0])

    def test_a_task_that_is_cancelled_in_the_block_releases(self) -> None:
        async def wait() -> None:
            async with self.breaker.call():
                await asyncio.sleep(60)

        with self.assertRaises(TimeoutError):
            asyncio.run(self.within(wait(), 0.3))
        self.assertEqual((self.events(), self.server.state("open")), (["acquire", "release"], [0]))

    def test_a_task_that_is_cancelled_while_it_enters_leaves_no_ticket(self) -> None:
        relay = Relay(self.server)
        self.addCleanup(relay.close)
        relay.delay_answer_to = b"/acquire"
        breaker = self.breaker_at(relay.address, seconds=10)

        async def enter() -> None:
            async with breaker.call():
                self.fail("the block is entered")

        async def ask() -> float:
            begun = time.monotonic()
            with self.assertRaises(TimeoutError):
                await self.within(enter(), 0.3)
            took = time.monotonic() - begun
            self.assertEqual(self.server.state("open"), [1])
            relay.go_on.set()
            return took

        self.assertLess(asyncio.run(ask()), 2)
        wait_for(lambda: self.events() == ["acquire", "release"], "the ticket is released")

    def test_a_task_that_is_cancelled_as_the_thread_has_entered_leaves_no_ticket(self) -> None:
        entered = threading.Event()
        begin = delvoumi.Call._enter_in_thread

        def told(call: delvoumi.Call, before: BaseException | None) -> None:
            begin(call, before)
            entered.set()

        async def ask() -> None:
            entering = asyncio.ensure_future(self.enter_and_stay())
            await asyncio.sleep(0)
            # The loop doesn't go on before the thread is through, so that both come in the same turn of it.
            self.assertTrue(entered.wait(10))
            entering.cancel()
            with self.assertRaises(asyncio.CancelledError):
                await entering

        with unittest.mock.patch.object(delvoumi.Call, "_enter_in_thread", told):
            asyncio.run(ask())
        wait_for(lambda: self.events() == ["acquire", "release"], "the ticket is released")

    def test_a_task_that_is_cancelled_while_it_waits_for_a_thread_to_end_its_ticket_ends_it(self) -> None:
        go_on = threading.Event()

        async def call() -> None:
            async with self.breaker.call() as call:
                asyncio.get_running_loop().run_in_executor(None, go_on.wait, 10)
                call.outcome(status=503)

        async def ask() -> None:
            # The one thread of the pool is taken while the block is left.
            asyncio.get_running_loop().set_default_executor(ThreadPoolExecutor(max_workers=1))
            with self.assertRaises(TimeoutError):
                await self.within(call(), 1)
            self.assertEqual(self.server.state("open"), [1])
            go_on.set()

        asyncio.run(ask())
        self.assertEqual((self.events(), self.server.state("open", "failed")), (["acquire", "report"], [0, 1]))

    def test_the_loop_goes_on_while_the_sidecar_hangs(self) -> None:
        breaker = self.breaker_at(self.server.address, delvoumi.FAIL_OPEN, seconds=0.6)

        async def call() -> str:
            async with breaker.call() as call:
                pass
            return call.result

        async def ask() -> tuple[str, float]:
            calling = asyncio.ensure_future(call())
            longest, seen = 0.0, time.monotonic()
            while not calling.done():
                await asyncio.sleep(0.01)
                longest, seen = max(longest, time.monotonic() - seen), time.monotonic()
            return await calling, longest

        self.server.stand_still()
        try:
            result, longest = asyncio.run(ask())
        finally:
            self.server.go_on()
        self.assertEqual(result, "unguarded: no answer: timed out")
        self.assertLess(longest, 0.4)
        wait_for(lambda: breaker.sidecar.settle(now=True) == 0, "the late ticket is released")

    async def enter_and_stay(self) -> None:
        async with self.breaker.call():
            await asyncio.sleep(60)

    async def within(self, work: Coroutine[Any, Any, None], seconds: float) -> None:
        async with asyncio.timeout(seconds):
            await work


if __name__ == "__main__":
    unittest.main()
