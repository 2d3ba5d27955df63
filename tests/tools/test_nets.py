"""Several nets: their text and its faults, lists of sheets, what each sees of the others, what is warned of, and the page."""
import json
import os
import random
import re
import subprocess
import unittest
import xml.etree.ElementTree as ElementTree

from common import EXAMPLES, ROOT, content, list_examples, nets_printed, random_job, run
from dustsheet import job as jobs, laying, nets_page, report, several, text as texts, words
from dustsheet.answer import Answer
from dustsheet.nets_drawing import NetsPicture
from dustsheet.several import Laid, Net

HEAD = "room 5 2 5\nblock solid 0 0 0 to 4 0 4\n"
TWO = HEAD + "reserved 4 1 4\nnet first\nsource 0 1 0\nsink 4 1 0\nnet\ncosts 20 30 40\nreserved 2 1 4\nsource 0 1 2\nsink 4 1 2\n"


def example(name):
    """The nets of an example, and the room as they are laid, by what was printed."""
    draft = texts.read(content(name + ".txt").decode(), name)
    listed = texts.jobs_of(draft)
    answers = [answer for _, answer in nets_printed(name, listed)]
    nets = [Net(place, net.name, job, answer) for place, (net, job, answer) in enumerate(zip(draft.nets, listed, answers))]
    return nets, laid_of(nets)


def laid_of(nets):
    laid = laying.lay_all([(net.job, net.answer) for net in nets])
    owners = [0] * nets[0].job.cells()
    for net in nets:
        for at in {at for branch in net.answer.branches for at in branch} | {net.job.source.at}:
            owners[net.job.number(at)] = net.place + 1
    return Laid(bytes(laid.kinds), bytes(laid.facings), owners)


def problems(text):
    draft = texts.read(text, "text")
    return [(problem.line, problem.words) for problem in draft.problems or texts.problems_of_all(draft)]


class Texts(unittest.TestCase):
    def test_what_is_shared_and_what_is_a_nets_own(self):
        draft = texts.read(TWO, "text")
        self.assertEqual((draft.problems, [net.name for net in draft.nets]), ([], ["first", ""]))
        first, second = texts.jobs_of(draft)
        self.assertEqual((first.costs, second.costs), ((10, 25, 15), (20, 30, 40)))
        self.assertEqual((first.reserved, second.reserved), ([(4, 1, 4)], [(4, 1, 4), (2, 1, 4)]))
        self.assertEqual((first.blocks, first.sides), (second.blocks, second.sides))
        self.assertEqual((first.source.at, second.sinks[0].at), ((0, 1, 0), (4, 1, 2)))

    def test_one_net_with_a_name_is_a_job(self):
        named, bare = (texts.read(HEAD + word + "source 0 1 0\nsink 4 1 0\n", "text") for word in ("net lamp\n", ""))
        self.assertEqual(texts.jobs_of(named), [texts.job_of(bare)])

    def test_faults_have_their_lines(self):
        for text, due in (
                ("room 3 1 1\nsource 0 0 0\nnet a\nsource 1 0 0\n", (3, "a 'source' line stands before the first 'net' line")),
                ("room 3 1 1\nnet a\nsource 0 0 0\nblock solid 1 0 0\n", (4, "a 'block' line behind a 'net' line; the room is one for all nets")),
                ("room 3 1 1\nnet a\nsource 0 0 0\nroom 3 1 1\n", (4, "a 'room' line behind a 'net' line")),
                ("room 3 1 1\nnet a\nsource 0 0 0\nnet b\n", (4, "net 1 (b) has no 'source' line; expected behind it: source [PORT] X Y Z [FACING]")),
                ("room 3 1 1\nnet a\nsource 0 0 0\nnet a\nsource 1 0 0\n", (4, "a second net 'a'; each has a name of its own")),
                ("room 3 1 1\nnet a\nsource 0 0 0\nnet 7\nsource 1 0 0\n", (4, "this is net 1, and not '7'; nets are counted from 0")),
                ("room 3 1 1\nnet a b\nsource 0 0 0\n", (2, "'b' is too much; expected: net [NAME]")),
                ("room 3 1 1\nnet %s\nsource 0 0 0\n" % ("x" * 25), (2, "a net's name has at most 24 letters")),
                ("net a\nsource 0 0 0\n", (2, "no 'room' line")),
                ("room 3 1 1\nnet a\nsource 0 0 0\nsource 1 0 0\n", (4, "a second 'source' line; the first is line 3")),
                ("room 3 1 1\nnet a\nsource 0 0 0\nnet b\nsource 5 0 0\n", (5, "position (5, 0, 0) is outside the room"))):
            with self.subTest(text=text):
                found = problems(text)
                self.assertTrue(any(line == due[0] and due[1] in said for line, said in found), found)

    def test_what_is_shared_is_told_once(self):
        found = problems("room 3 1 1\nblock solid 9 0 0\nnet a\nsource 0 0 0\nnet b\nsource 1 0 0\n")
        self.assertEqual([line for line, _ in found], [2])

    def test_the_canonical_text(self):
        draft = texts.read(TWO, "text")
        nets = texts.jobs_of(draft)
        written = texts.write_all(nets, [net.name for net in draft.nets])
        self.assertEqual(texts.jobs_of(texts.read(written, "text")), nets)
        self.assertEqual(re.findall(r"^net .*", written, re.MULTILINE), ["net first", "net 1"])
        self.assertEqual(written.count("costs"), 2)
        self.assertEqual(written.count("block "), 1)

    def test_random_lists_come_back(self):
        rng = random.Random(5)
        for _ in range(150):
            nets = [random_job(rng) for _ in range(rng.randrange(1, 5))]
            for job in nets[1:]:
                job.sides, job.blocks = nets[0].sides, nets[0].blocks
                if rng.random() < 0.5:
                    job.conductors, job.reserved = list(nets[0].conductors), nets[0].reserved[:1]
            draft = texts.read(texts.write_all(nets, [""] * len(nets)), "text")
            self.assertEqual(draft.problems, [])
            self.assertEqual(texts.jobs_of(draft), nets)


    def test_the_example_of_the_text(self):
        with open(os.path.join(ROOT, "tools", "TEXT.md"), encoding="utf-8") as file:
            text = re.findall(r"```text\n(.*?)```", file.read(), re.DOTALL)[1]
        draft = texts.read(text, "TEXT.md")
        self.assertEqual((draft.problems, [net.name for net in draft.nets]), ([], ["light", "bell"]))
        self.assertEqual(texts.problems_of_all(draft), [])
        self.assertEqual([job.run for job in texts.jobs_of(draft)], [12, 10])


class Lists(unittest.TestCase):
    def test_a_sheet_ends_where_its_length_says(self):
        one, other = content("lane.sheet"), content("gap.sheet")
        self.assertEqual(jobs.sheets_of(one + other), [one, other])
        self.assertEqual(jobs.sheets_of(one + other[:-1]), [one, other[:-1]])
        self.assertEqual(jobs.sheets_of(one + b"\7\0"), [one, b"\7\0"])
        self.assertEqual(jobs.sheets_of(b""), [b""])
        self.assertEqual([jobs.is_list(many) for many in (one, one + other, one + other[:-1], one + b"\1\0", b"")], [False, True, False, False, False])

    def test_examples_are_made_from_their_texts(self):
        self.assertTrue(list_examples())
        for name in list_examples():
            draft = texts.read(content(name + ".txt").decode(), name)
            self.assertEqual((draft.problems, texts.problems_of_all(draft)), ([], []))
            self.assertEqual(b"".join(map(jobs.to_bytes, texts.jobs_of(draft))), content(name + ".sheets"))

    def test_make_and_show(self):
        for name in list_examples():
            status, made, said = run("sheet", "make", os.path.join(EXAMPLES, name + ".txt"))
            self.assertEqual((status, made, said), (0, content(name + ".sheets"), ""))
            status, shown, _ = run("sheet", "show", os.path.join(EXAMPLES, name + ".sheets"))
            self.assertEqual((status, run("sheet", "make", "-", given=shown)[1]), (0, made))
            _, digits, _ = run("sheet", "make", "--hex", os.path.join(EXAMPLES, name + ".txt"))
            self.assertEqual(run("sheet", "show", "--hex", "-", given=digits)[1], shown)

    def test_show_names_the_net(self):
        status, shown, said = run("sheet", "show", "-", given=content("lane.sheet") + content("gap.sheet"))
        self.assertEqual((status, shown), (2, b""))
        self.assertIn("net 1: its room is 9x5x1, and that of net 0 is 13x5x5: nets of a list share one room (number 1)", said)

    def test_other_words_take_one_net(self):
        for words_ in (["view"], ["why"], ["draw"]):
            done = subprocess.run([os.path.join(ROOT, "dustroute"), *words_, os.path.join(EXAMPLES, "controller.txt")], stdout=subprocess.PIPE,
                                  stderr=subprocess.PIPE)
            self.assertEqual((done.returncode, done.stdout), (2, b""), words_)
            self.assertIn(b"4 nets; this word takes one: `./dustroute nets`", done.stderr)


class Others(unittest.TestCase):
    def test_in_what_blocks_differ(self):
        job = texts.job_of(texts.read("room 3 1 1\nsource 0 0 0\nblock solid 1 0 0\nblock lever 2 0 0\n", "text"))
        bare = texts.job_of(texts.read("room 3 1 1\nsource 0 0 0\nblock solid 1 0 0\n", "text"))
        turned = texts.job_of(texts.read("room 3 1 1\nsource 0 0 0\nblock lever 2 0 0\nblock solid 1 0 0\n", "text"))
        self.assertIsNone(words.of_difference(job, job))
        self.assertIn("net 0 has a lever at (2, 0, 0) that it hasn't", words.of_difference(job, bare))
        self.assertIn("it has a lever at (2, 0, 0) that net 0 hasn't", words.of_difference(bare, job))
        self.assertIn("in another order", words.of_difference(job, turned))

    def test_what_a_net_sees(self):
        nets, _ = example("controller")
        seen = several.seen_by(nets[1].job, nets[:1], [net.job for net in nets[2:]])
        self.assertEqual(set(seen.conductors), {at for branch in nets[0].answer.branches for at in branch})
        self.assertIn(nets[2].job.source.at, seen.terminals)
        self.assertIn((9, 1, 6), seen.terminals)  # beside the alarm's source
        self.assertNotIn(nets[0].job.source.at, seen.terminals)

    def test_a_net_with_no_wire_is_warned_of(self):
        listed = texts.jobs_of(texts.read("room 2 2 1\nnet upper\nsource 0 1 0\nsink 1 1 0\nnet lower\nsource 0 0 0\nsink 1 0 0\n", "text"))
        upper, lower = Answer([[(0, 1, 0), (1, 1, 0)]]), Answer([[(0, 0, 0), (1, 0, 0)]])
        nets = [Net(0, "upper", listed[0], upper), Net(1, "lower", listed[1], lower)]
        said = [remark.words for remark in several.all_remarks(nets, laid_of(nets))]
        self.assertIn("net 1 (lower): no wire is laid at (0, 0, 0): another net's support, transparent, stands there", said)
        turned = [Net(0, "lower", listed[1], lower), Net(1, "upper", listed[0], upper)]
        said = [remark.words for remark in several.all_remarks(turned, laid_of(turned))]
        self.assertIn("net 1 (upper): the wire at (0, 1, 0) has no ground: another net's wire lies right beneath", said)

    def test_the_example_has_nothing_to_warn_of(self):
        self.assertEqual(several.all_remarks(*example("controller")), [])


class Pages(unittest.TestCase):
    def test_every_net_is_drawn_in_its_colour(self):
        nets, laid = example("controller")
        tree = ElementTree.fromstring(nets_page.page("controller", nets, laid, [], False))
        room = next(figure for figure in tree.iter("{http://www.w3.org/1999/xhtml}figure") if figure.get("id") == "room")
        strokes = [one.get("stroke") for one in room.iter("{http://www.w3.org/2000/svg}polyline") if one.get("data-wire")]
        self.assertEqual(len(strokes), 5)
        self.assertEqual(len(set(strokes)), 4)
        said = "".join(tree.itertext())
        for part in ("Net 0 (light)", "Net 3 (pump)", "4 nets, routed in this order", "To fetch: 8 Solid, 4 Transparent, 65 RedstoneWire, 5 Repeater"):
            self.assertIn(part, said)

    def test_what_is_laid(self):
        nets, laid = example("controller")
        put = several.puts(nets, laid)
        self.assertEqual(len(put), 82)
        self.assertEqual({one.net for one in put}, {0, 1, 2, 3})
        told = json.loads(report.of_nets(nets, laid, [], False))
        self.assertEqual(([net["name"] for net in told["nets"]], len(told["laid"])), (["light", "door", "alarm", "pump"], 82))
        self.assertIn({"at": [13, 1, 6], "kind": "repeater", "facing": "east", "net": 3}, told["laid"])

    def test_the_picture_of_the_example(self):
        drawn = NetsPicture(*example("controller"), ()).svg()
        self.assertEqual(drawn.encode(), content("controller.svg"))
        ElementTree.fromstring(drawn)


if __name__ == "__main__":
    unittest.main()
