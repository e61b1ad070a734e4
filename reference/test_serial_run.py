import unittest

import samples
from helpers import answer, lines, whole_report

scripted = samples.scripted
CRASH = [{"node": 1, "tick": 2}]


def lines_of(text, letter):
    return [line for line in text.splitlines() if line[0] == letter]


class Reports(unittest.TestCase):
    maxDiff = None

    def same(self, tree, head, states, last, words="run"):
        self.assertEqual(answer(words, tree), (whole_report(tree, head, states, last), 0))

    def test_a_counter_delivers_and_replies(self):
        text = lines("E 1 1 0 e 1 / D 1 c 1 / Z 1 ok 1 / E 2 1 0 e 1 / D 2 c 2 / Z 2 ok 2 / S 0 c 2 0 0 0 / N 2 2 0")
        for words in ("run", "serial"):
            self.assertEqual(answer(words, samples.ONE_COUNTER), (text, 0))

    def test_nothing_happens_without_events(self):
        self.assertEqual(answer("run", scripted()), (lines("S 0 a 0 0 0 0 / S 0 b 0 0 0 0 / S 0 c 0 0 0 0 / N 0 0 0"), 0))

    def test_replies_of_two_microprotocols(self):
        self.same(scripted("a_add 1; b_add 1"), "E 1 1 0 a_add 1 / Z 1 ok 1 / E 2 1 0 b_add 1 / Z 2 ok 1",
                  "S 0 a 1 0 0 0 / S 0 b 1 0 0 0", "N 2 0 0", "run --workers 2")

    def test_all_forms_together(self):
        head = ("E 1 1 0 ask_self 1 / Z 1 ok 2 / E 2 1 0 by_route 5 / D 2 c 5 / Z 2 ok / E 3 1 0 b_add 1 / Z 3 ok 6 / "
                "E 4 1 0 ask_four 5 / X 4 1 four Undeclared / D 4 a 9 / Z 4 ok 9 / E 5 1 0 moving 1 / Z 5 ok 7")
        for words in ("run --workers 1", "run --workers 2", "run --workers 8", "serial"):
            self.same(scripted("ask_self 1; by_route 5; b_add 1; ask_four 5; moving 1"), head,
                      "S 0 a 9 1 0 0 / S 0 b 7 0 0 0 / S 0 c 5 0 0 0", "N 5 2 1", words)

    def test_a_call_that_the_set_does_not_have_is_refused(self):
        head = "E 1 1 0 undeclared 5 / C 1 1 0 a.ask_b 5 / X 1 1 b_add Undeclared / D 1 a 0 1 / Y 1 1 0 / Z 1 ok 0"
        for words in ("run --calls", "serial --calls"):
            self.same(scripted("undeclared 5"), head, "", "N 1 1 1", words)

    def test_a_call_above_the_bound_is_refused(self):
        self.same(scripted("three 5"), "E 1 1 0 three 5 / X 1 1 b_add OverBound / D 1 a 0 2 / Z 1 ok", "S 0 b 10 0 0 0",
                  "N 1 1 1")

    def test_calls_within_the_bound(self):
        self.same(scripted("ask_self 1; ask_self 1"), "E 1 1 0 ask_self 1 / Z 1 ok 2 / E 2 1 0 ask_self 1 / Z 2 ok 6",
                  "S 0 a 6 0 0 0", "N 2 0 0")

    def test_calls_along_a_route(self):
        self.same(scripted("by_route 5; b_add 1"), "E 1 1 0 by_route 5 / D 1 c 5 / Z 1 ok / E 2 1 0 b_add 1 / Z 2 ok 6",
                  "S 0 b 6 0 0 0 / S 0 c 5 0 0 0", "N 2 1 0")

    def test_a_call_off_the_route_is_refused(self):
        self.same(scripted("off_route 5"), "E 1 1 0 off_route 5 / X 1 1 b_add OffRoute / D 1 a 0 3 / Z 1 ok 0", "", "N 1 1 1")

    def test_a_computation_without_units_is_cut_and_nothing_is_undone(self):
        self.same(scripted("loop; a_add 1"), "E 1 1 0 loop / X 1 2 - OverBudget / Z 1 cut / E 2 1 0 a_add 1 / Z 2 ok 3",
                  "S 0 a 3 0 0 0", "N 2 0 1")

    def test_a_refused_attempt_counts_nowhere(self):
        self.same(scripted("ask_four 5"), "E 1 1 0 ask_four 5 / X 1 1 four Undeclared / D 1 a 7 / Z 1 ok 7",
                  "S 0 a 7 1 0 0", "N 1 1 1")

    def test_a_set_refuses_the_first_handler_that_it_does_not_have(self):
        self.same(scripted("four_by_set 5"), "E 1 1 0 four_by_set 5 / X 1 1 four Undeclared / D 1 a 7 / Z 1 ok 7",
                  "S 0 a 7 1 0 0", "N 1 1 1")

    def test_an_event_without_handlers_is_refused(self):
        self.same(scripted("unbound"), "E 1 1 0 unbound / X 1 0 unbound Unbound / Z 1 no Unbound", "", "N 1 0 1")

    def test_sums_begin_again_at_two_to_the_64(self):
        text, _ = answer("run", scripted("b_add 18446744073709551615; b_add 1"))
        self.assertEqual(lines_of(text, "Z"), ["Z 1 ok 18446744073709551615", "Z 2 ok 0"])

    def test_what_waits_is_called_when_no_call_is_active(self):
        self.same(scripted("by_set 5"), "E 1 1 0 by_set 5 / D 1 c 5 / Z 1 ok", "S 0 b 5 0 0 0 / S 0 c 5 0 0 0", "N 1 1 0")

    def test_what_waits_is_called_in_the_order_asked(self):
        self.same(scripted("later_twice 5"), "E 1 1 0 later_twice 5 / D 1 c 5 / D 1 c 9 / Z 1 ok", "S 0 c 14 0 0 0", "N 1 2 0")

    def test_a_change_of_bindings_takes_effect_as_it_is_admitted(self):
        self.same(scripted("moving 1; change move 1; moving 1"),
                  "E 1 1 0 moving 1 / Z 1 ok 1 / B 2 1 0 move 1 / Z 2 ok 1 / E 3 1 0 moving 1 / D 3 c 1 / Z 3 ok 1",
                  "S 0 a 1 0 0 0 / S 0 b 1 0 0 0 / S 0 c 1 0 0 0", "N 3 1 0")

    def test_who_was_admitted_before_a_change_calls_by_the_old_table(self):
        self.same(scripted("ask_moving 1; change move 1"), "E 1 1 0 ask_moving 1 / Z 1 ok 1 / B 2 1 0 move 1 / Z 2 ok 1",
                  "S 0 a 1 0 0 0 / S 0 b 1 0 0 0", "N 2 0 0")

    def test_a_change_that_a_handler_asked_for_comes_first_in_the_next_tick(self):
        self.same(scripted("ask_change 3; moving 1; %2 moving 1"),
                  "E 1 1 0 ask_change 3 / Z 1 ok / E 2 1 0 moving 1 / Z 2 ok 1 / B 3 2 0 move 3 / Z 3 ok 3 / "
                  "E 4 2 0 moving 1 / D 4 c 1 / Z 4 ok 1",
                  "S 0 a 3 0 0 0 / S 0 b 1 0 0 0 / S 0 c 1 0 0 0", "N 4 1 0")

    def test_a_message_arrives_in_the_next_tick(self):
        self.same(scripted("send 1", nodes=2), "E 1 1 0 send 1 / Z 1 ok / E 2 2 1 a_add 1 / Z 2 ok 1", "S 1 a 1 0 0 0",
                  "N 2 0 0")

    def test_a_lost_message_and_one_to_a_crashed_node_arrive_nowhere(self):
        for fault in ({"lose": [samples.loss(0, 1, 1, 1)]}, {"crash": CRASH}):
            self.same(scripted("send 1", nodes=2, **fault), "E 1 1 0 send 1 / Z 1 ok", "", "N 1 0 0")

    def test_messages_to_all_reach_the_limit_of_computations(self):
        text, status = answer("run", scripted("flood", nodes=8, ticks=6))
        self.assertEqual((text.splitlines()[-1], status), ("N 37449 0 0", 0))
        for words in ("run", "serial"):
            text, status = answer(words, scripted("flood", nodes=8, ticks=7))
            self.assertEqual((text.splitlines()[-1], status), ("L 100000", 8))


class GroupStack(unittest.TestCase):
    def test_a_cast_is_decided_and_delivered(self):
        text = lines(
            "E 1 1 0 cast 0 7 / Z 1 ok 1 / E 2 2 0 wire 0 1 0 1 0 0 0 1 0 7 / Z 2 ok / E 3 2 0 wire 0 2 1 1 1 0 0 0 1 0 7 / "
            "Z 3 ok / E 4 3 0 wire 0 2 2 1 1 0 0 0 1 0 7 / Z 4 ok / E 5 4 0 wire 0 2 3 1 1 0 0 0 1 0 7 / D 5 repl 0 1 0 7 / "
            "Z 5 ok / E 6 5 0 wire 0 1 0 2 1 1 0 0 1 0 7 / Z 6 ok / S 0 link 5 5 / S 0 fd 0 / S 0 rb 2 2 / S 0 cons 1 1 / "
            "S 0 ab 2 0 / S 0 sq 0 1 / S 0 repl 0 1 1 0 / S 0 views 0 1 / N 6 1 0")
        self.assertEqual(answer("run", samples.group("cast 0 7")), (text, 0))

    def test_a_second_round_decides_where_the_first_coordinator_is_not_heard(self):
        text, status = answer("run", samples.group(**samples.SECOND_ROUND))
        self.assertEqual(lines_of(text, "D"), ["D 18 repl 1 1 0 7", "D 19 repl 1 1 0 7", "D 21 repl 1 1 0 7"])
        node = {line.split()[1]: line.split()[3] for line in lines_of(text, "E")}
        self.assertEqual([node[number] for number in ("18", "19", "21")], ["1", "0", "2"])
        self.assertEqual((text.splitlines()[-1], status), ("N 24 3 0", 0))

    def test_a_broadcast_is_replaced_between_two_deliveries(self):
        text, status = answer("run", samples.group("cast 0 5; cast 1 0; cast 0 6", ticks=11))
        self.assertEqual(lines_of(text, "D"), ["D 9 repl 0 1 0 5", "D 19 repl 0 3 0 6"])
        self.assertEqual(lines_of(text, "B"), ["B 14 8 0 to_seq 1"])
        self.assertIn("S 0 repl 1 3 3 0", text.splitlines())
        self.assertEqual((text.splitlines()[-1], status), ("N 21 2 0", 0))

    def test_consensus_alone_decides(self):
        text = lines(
            "E 1 1 0 propose 1 7 / Z 1 ok / E 2 2 0 wire 0 2 1 1 1 0 7 0 0 0 0 / Z 2 ok / E 3 3 0 wire 0 2 2 1 1 0 7 0 0 0 0 / "
            "Z 3 ok / E 4 4 0 wire 0 2 3 1 1 0 7 0 0 0 0 / D 4 up 1 7 / Z 4 ok / E 5 5 0 wire 0 1 0 1 1 1 7 0 0 0 0 / Z 5 ok / "
            "S 0 link 4 4 / S 0 fd 0 / S 0 rb 1 1 / S 0 cons 1 1 / S 0 up 0 0 0 0 / N 5 1 0")
        self.assertEqual(answer("run", samples.consensus("propose 1 7")), (text, 0))


if __name__ == "__main__":
    unittest.main()
