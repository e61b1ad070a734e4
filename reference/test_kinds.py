import unittest

import samples
from kinds import BOXES
from script import read_script

NOTHING = ("words", [])


def box(tree, name):
    script = read_script(samples.text(tree).encode())
    position = [micro.name for micro in script.micros].index(name)
    return BOXES[script.micros[position].kind](script, 0, position)


class Kinds(unittest.TestCase):
    def test_the_detector_suspects_after_too_many_quiet_beats_and_stops_when_it_hears(self):
        detector = box(samples.group(nodes=2), "fd")
        send, suspect = detector.ports
        for quiet in range(1, 5):
            first = detector.step(("begin", detector.BEAT, []))
            self.assertEqual(first, ("call", send, [2, 0], [0]))
            outcome = detector.step(("resume", detector.BEAT, first[-1], NOTHING))
            self.assertEqual(outcome, ("done", [0]) if quiet < 4 else ("call", suspect, [1], [2]))
        self.assertEqual(detector.step(("resume", detector.BEAT, [2], NOTHING)), ("done", [2]))
        detector.step(("begin", detector.HEARD, [1]))
        self.assertEqual(detector.show(), [0])

    def test_views_are_installed_and_asked_for(self):
        views = box(samples.group(nodes=3), "views")
        self.assertEqual(views.show(), [0, 7])
        self.assertEqual(views.step(("begin", views.INSTALL, [5])), ("done", []))
        self.assertEqual(views.show(), [1, 5])
        self.assertEqual(views.step(("begin", views.ASK, [5])), ("call", views.ports[0], [2, 5], []))

    def test_the_replacement_layer_changes_its_epoch_and_drops_what_is_old(self):
        layer = box(samples.group(), "repl")
        deliver = layer.DELIVER
        self.assertEqual(layer.step(("begin", deliver, [0, 0, 1, 1, 0])), ("change", layer.changes[0], [1], [layer.CHANGE]))
        self.assertEqual(layer.step(("resume", deliver, [layer.CHANGE], NOTHING)), ("done", []))
        self.assertEqual(layer.show(), [1, 0, 1, 1])
        self.assertEqual(layer.step(("begin", deliver, [0, 0, 2, 0, 7])), ("done", []))
        self.assertEqual(layer.show(), [1, 0, 1, 1])
        self.assertEqual(layer.step(("begin", deliver, [1, 0, 2, 0, 7])), ("deliver", [0, 2, 0, 7], [layer.PLAIN]))
        self.assertEqual(layer.step(("resume", deliver, [layer.PLAIN], NOTHING)), ("done", []))
        self.assertEqual(layer.show(), [1, 0, 2, 1])


if __name__ == "__main__":
    unittest.main()
