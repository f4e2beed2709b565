"""Tests of an application that adds, each on a core of its own."""

import pytest

ADD = "11111111-2222-3333-4444-555555555555"


@pytest.mark.boot("boot.txt")
def test_sum(core):
    session = core.call(f"open {ADD}").session
    assert core.call(f"invoke {session} 0 value_inout 5 7").values == [(12, 0)]


@pytest.mark.boot("boot.txt")
def test_session_is_its_clients(core):
    session = core.call(f"open {ADD}", client=1).session
    assert core.call(f"invoke {session} 0 value_inout 5 7", client=2)[:2] == ("BAD_PARAMETERS", "TEE")


@pytest.mark.boot(threads=1, frames=2, applications={ADD: "../../examples/applications/add.hex"})
def test_pages(core):
    results = [core.call(f"open {ADD}").result for _ in range(3)]
    assert results == ["SUCCESS", "SUCCESS", "OUT_OF_MEMORY"]
    assert core.state().counts["pages"] == 0
