"""One rule each."""

import pytest

from adopt.adopting import Options
from adopt.refusing import Refusal

from .compiling import body, of_code

RING = """
static struct { %(fields)s volatile uint64_t slots[2]; } ring;
bool push(uint64_t value) {
    uint64_t tail = ring.tail;
    if (tail - ring.head >= 2) return false;
    ring.slots[tail & 1] = value;
    %(push)s
    return true;
}
bool pop(uint64_t *value) {
    uint64_t head = ring.head;
    if (head == ring.tail) return false;
    *value = ring.slots[head & 1];
    %(pop)s
    return true;
}
"""
PLAIN = {"fields": "volatile uint64_t head, tail;", "push": "ring.tail = tail + 1;", "pop": "ring.head = head + 1;"}


def ring(**changes: str) -> str:
    """The code of a ring with other parts."""
    return RING % (PLAIN | changes)


def test_each_access_is_written_once_and_in_order() -> None:
    lines = [it for it in body(of_code(ring()), "push").splitlines() if "[" in it]
    assert [it.split("[")[1].split("]")[0].split(" ")[0] for it in lines] == ["tail", "head", "slots", "tail"]


def test_a_fence_stays() -> None:
    code = ring(push="ring.tail = tail + 1; atomic_thread_fence(memory_order_seq_cst);")
    assert "mfence" in body(of_code(code), "push")


def test_locked_arithmetic() -> None:
    code = ring(fields="volatile uint64_t head; _Atomic uint64_t tail;", push="atomic_fetch_add(&ring.tail, 1);")
    assert "lock xadd qword ptr [tail]" in body(of_code(code), "push")


def test_locked_bits_are_a_loop() -> None:
    code = ring(
        fields="volatile uint64_t head, tail; _Atomic uint64_t marks;", push="ring.tail = tail + 1; atomic_fetch_or(&ring.marks, 2);"
    )
    made = body(of_code(code), "push")
    assert "lock cmpxchg qword ptr [marks]" in made and "bound 3" in made


def test_bounds_by_line_and_for_all() -> None:
    code = ring(push="while (ring.tail != tail) ; ring.tail = tail + 1;")
    assert "bound 1" in body(of_code(code), "push")
    assert "bound 4" in body(of_code(code, Options(bound=4)), "push")


def test_constant_modes_are_decided() -> None:
    code = ring(fields="volatile uint64_t head, tail; uint64_t mode;", push="if (ring.mode == 3) ring.tail = 99; ring.tail = tail + 1;")
    made = of_code(code)
    assert "99" not in body(made, "push") and ".array mode" not in made.text
    assert any("ring_mode is 0" in it for it in made.report)


def test_a_constant_pointer_is_followed() -> None:
    code = """
    struct ring { volatile uint64_t full; uint64_t item; };
    static struct ring storage;
    static struct ring *queue = &storage;
    bool push(uint64_t value) { if (queue->full) return false; queue->item = value; queue->full = 1; return true; }
    bool pop(uint64_t *value) { if (!queue->full) return false; *value = queue->item; queue->full = 0; return true; }
    """
    assert ".array full 1" in of_code(code).text


def test_a_pointer_that_changes_is_refused() -> None:
    code = """
    struct item { uint64_t value; struct item *next; };
    static struct item one, two;
    static struct item *volatile first = &one;
    bool push(uint64_t value) { struct item *it = first; it->value = value; first = &two; return true; }
    bool pop(uint64_t *value) { *value = first->value; return true; }
    """
    with pytest.raises(Refusal, match="address"):
        of_code(code, Options(capacity=1))


def test_a_failed_assertion_is_a_false_assert() -> None:
    code = "void abort(void);" + ring(push="if (ring.tail != tail) abort(); ring.tail = tail + 1;")
    assert "assert e" in body(of_code(code), "push")


def test_a_call_without_a_body_is_refused() -> None:
    code = "void other(void);" + ring(push="other(); ring.tail = tail + 1;")
    with pytest.raises(Refusal, match="other is called"):
        of_code(code)


def test_a_store_to_a_part_is_refused() -> None:
    code = ring(push="ring.tail = tail + 1; *(volatile uint16_t *)&ring.tail = 0;")
    with pytest.raises(Refusal, match="bytes"):
        of_code(code, Options(capacity=2), tries=0)


def test_the_head_lists_what_was_widened() -> None:
    code = ring(fields="volatile uint32_t head, tail;", push="ring.tail = tail + 1;", pop="ring.head = head + 1;")
    made = of_code(code.replace("uint64_t tail =", "uint32_t tail =").replace("uint64_t head =", "uint32_t head ="))
    assert any(it.startswith("widened: tail has 32 bits") for it in made.report)
    assert any("counted in 64 bits" in it for it in made.report)


def test_signed_differences_keep_their_sign() -> None:
    code = (
        ring(fields="volatile uint32_t head, tail;")
        .replace("uint64_t tail =", "uint32_t tail =")
        .replace("uint64_t head =", "uint32_t head =")
    )
    made = of_code(code.replace("tail - ring.head >= 2", "(int32_t)(tail - ring.head) > 1"), tries=1000)
    assert "jg" in body(made, "push") or "jle" in body(made, "push")


def test_a_shift_that_is_left_reads_a_table() -> None:
    code = ring(fields="volatile uint64_t head, tail, rounds;", push="ring.rounds = tail >> 1; ring.tail = tail + 1;")
    made = of_code(code)
    assert "qword ptr [shifted_by_1 +" in made.text and ".array shifted_by_1 64" in made.text


def test_capacity_is_found_by_pushing() -> None:
    assert ".capacity 2\n" in of_code(ring()).text
    assert ".capacity 1\n" in of_code(ring().replace(">= 2", ">= 1")).text


def test_lines_lead_back_to_the_source() -> None:
    lines = [it for it in of_code(ring()).text.splitlines() if it.startswith("  ")]
    assert all("; 0x" in it and ".c:" in it for it in lines)
