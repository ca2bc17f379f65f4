"""One exchange of a site: it joins what others answered, asks what it lacks, answers what others ask, and removes
what is done with. An answer is sent only if its digests agree with the indexes: otherwise a slice that changed at
one site would be a conflict everywhere."""
import contextlib
import os
import time
from dataclasses import dataclass, field
from typing import BinaryIO, Dict, Iterator, List, Optional, Sequence, Set, Tuple, Union

from ..console.escapes import shown
from ..console.faults import Failed, about, system_text
from ..console.json_lines import line_of
from ..console.screen import Screen
from ..formats.contents import ADMISSION, Content, Malformed, chunks_in, content_in, content_of, digest_in, entries_in
from ..formats.contents import summary_of
from ..store.archive import Archive
from ..store.folder import watched
from ..store.losses import counted, lost_lines
from ..store.program import Merge, Program
from .build_names import Telling
from .identity import Identity, last_mark, own_marks, when_marked
from .join import Joining
from .memory import NOTHING, Exchanged, Lacks
from .shared_folder import SHORT, Answer, Sent, SharedFolder, TimedFile, answer_name, digest_of, latest_first
from .shared_folder import timed_name
from .signatures import Older, Unfit
from .times import TIME, fault_of_time, time_after, time_now

# A longer question is refused. One of 18 million slices and retirements is as long.
MOST_OF_QUESTION = 1 << 30


@dataclass(eq=False)
class Exchange:
    """What one call does, with the lock of its archive and a room."""

    archive: Archive
    folder: SharedFolder
    program: Program
    screen: Screen
    room: bytes
    # Names that stay in the folder, and those that are done with; sites of which no answer is removed.
    kept: Set[str] = field(default_factory=set)
    done: Set[str] = field(default_factory=set)
    unsure: Set[str] = field(default_factory=set)
    # What is in the folder of this site at the end; and its answers there, by the sites that they are to.
    stays: Set[str] = field(default_factory=set)
    answers: Dict[str, List[Answer]] = field(default_factory=dict)
    lines: List[str] = field(default_factory=list)
    # The questions of this site in the folder.
    questions: List[TimedFile] = field(default_factory=list)

    def __post_init__(self) -> None:
        self.content, self.asked = self.archive.content(self.program, self.screen), Exchanged(self.archive)
        self.telling = Telling(self.archive, self.folder, self.screen, self.room, self.asked)
        for answer in self.folder.answers:
            if answer.site == self.folder.site:
                self.answers.setdefault(answer.to, []).append(answer)
        self.marks = own_marks(self.folder, self.screen)
        self.folder.pass_over_untimely(self.screen)
        self.archive.lose(self.lacking(), self.screen)

    def carry_out(self, identity: Identity, takes_name: bool) -> None:
        """Joins the answers, and then does the rest: the archive has all by then, so a failure is reported, and the
        other steps follow."""
        self.join()
        for step in (
            self.telling.join,
            self.telling.tell,
            lambda: self.mark(identity, takes_name),
            self.ask,
            self.answer,
            self.clear,
            self.save,
        ):
            try:
                step()
            except (OSError, Failed) as fault:
                self.say(fault)
        self.lines += self.telling.lines

    def say(self, fault: Union[OSError, Failed]) -> None:
        if isinstance(fault, Failed):
            self.screen.fail(fault.text, fault.more)
        else:
            self.screen.fail(system_text(fault, self.folder.path))

    def lacking(self) -> Content:
        """What this site asked with and lacks, by ARCHIVE.asked, and by its questions in the folder that it does not
        know any more."""
        lacking = self.asked.lacking_in(self.content)
        digests = {digest for _, digest in self.asked.questions}
        for question in self.folder.questions:
            if question.site == self.folder.site:
                data = self.own_question(question, question.digest in digests)
                had = None if data is None else content_of_summary(data)
                lacking = lacking.joined(had.beyond(self.content)) if had else lacking
        return lacking

    def own_question(self, question: TimedFile, is_known: bool) -> Optional[bytes]:
        """The bytes of a question of this site, if they are not known and are whole."""
        data = None
        try:
            if not is_known:
                data = self.folder.read(question, self.room, MOST_OF_QUESTION)
            elif (question.time, question.digest) not in self.asked.questions:
                self.folder.check(question)
        except Unfit as unfit:
            if not unfit.is_half:
                self.folder.pass_over(question, unfit, self.screen)
                return None
        self.questions.append(question)
        return data

    # ---- what came

    def join(self) -> None:
        """Joins the answers that are there, whatever this site asked since."""
        joining = Joining(self.archive, self.folder, self.program, self.screen, self.room, self.content)
        joining.fetch([one for one in self.folder.answers if one.to == self.folder.site], self.may_be_wanted)
        self.lines += joining.put()
        self.content = joining.content
        for answer in joining.done:
            self.asked.note(answer.site, "joined", time.gmtime())
            self.done.add(answer.name)
        self.archive.settle()

    def may_be_wanted(self, answer: Answer) -> bool:
        """Whether half an answer may be waited for."""
        prefixes = {digest[:SHORT] for _, digest in self.asked.questions}
        return answer.question in prefixes or len(self.archive.lost.content) > 0

    # ---- what it is called

    def mark(self, identity: Identity, takes: bool) -> None:
        """Puts the mark of this site into the folder, unless the last one of its name is this."""
        last, own = last_mark(self.marks), [one for one in self.marks if one.digest == identity.digest()]
        if last == identity.digest() and self.folder.has_own(max(own, key=when_marked)):
            self.kept.add(max(own, key=when_marked).name)
            return
        # The last mark of a name is the one that counts.
        name = timed_name(self.folder.site, "is", time_after(one.time for one in self.marks), identity.digest())
        identity.keep(self.room)
        self.folder.put([identity.text], name, len(identity.text))
        self.kept.add(name)
        self.lines += [line_of(f"took {name}", "took", file=name)] * (takes and last not in ("", identity.digest()))

    # ---- what is asked

    def ask(self) -> None:
        """Asks with what the archive has, unless the last question in the folder has that."""
        summary = self.content.summary()
        digest, last = digest_of(summary), self.asked.questions[-1] if self.asked.questions else ("", "")
        self.asked.has_content(digest)
        self.asked.lacks[digest] = Lacks(len(summary))
        if last[1] != digest or self.is_behind(last):
            last = (self.asked.next_time(self.signed_times()), digest)
            self.asked.ask(last, self.content)
        # What is asked with is kept before it is asked.
        self.asked.save(self.room)
        name = timed_name(self.folder.site, "asks", *last)
        if not any(one.name == name and self.is_asked(one) for one in self.questions):
            self.folder.put([summary], name, len(summary))
            self.lines.append(line_of(f"asked {name}", "asked", file=name))
        self.kept.add(name)

    def is_behind(self, last: Tuple[str, str]) -> bool:
        """Whether a later question of this site may be taken for the last one, or that has a time that does not count.
        Anyone may have written one where files are not signed, so that a time of the future is waited for."""
        now, signed = time_now(), self.signed_times()
        others = [(one.time, one.digest) for one in self.questions if one.time < now or one.time in signed]
        return bool(fault_of_time(last[0])) or last < max([*self.asked.asked_in_time(), *others], default=last)

    def signed_times(self) -> List[str]:
        """The times of the questions in the folder that this site signed."""
        return [one.time for one in self.questions] if self.folder.senders else []

    def is_asked(self, question: TimedFile) -> bool:
        """Whether a question of this site is in the folder as it put it there, and whole."""
        with contextlib.suppress(Unfit):
            return self.folder.has_own(question) and bool(self.folder.read(question, self.room, MOST_OF_QUESTION))
        return False

    # ---- what others ask

    def answer(self) -> None:
        """Answers the last question of each site: first those that lack the least, so that one that lacks all keeps
        none of them waiting."""
        left = self.folder.most
        for question, lacks in sorted(self.last_questions(), key=lambda one: (one[1].length, one[0].name)):
            if left is None or lacks.length <= left:
                self.answer_if_possible(question, lacks)
                left = None if left is None else left - lacks.length
            else:
                self.screen.fail(f"{shown(self.folder.at(question.name))}: {self.too_long(lacks.length, left)}")

    def last_questions(self) -> List[Tuple[TimedFile, Lacks]]:
        """The last question of each site that is whole, and what that site lacks."""
        found: List[Tuple[TimedFile, Lacks]] = []
        others = (one for one in self.folder.questions if one.site != self.folder.site)
        for site, questions in latest_first(others):
            last = self.last_question(questions)
            self.folder.look_at(questions, self.screen)
            if last:
                found.append(last)
            else:
                self.unsure.add(site)
        return found

    def too_long(self, length: int, left: int) -> str:
        others = "" if left == self.folder.most else f", of which other answers leave {left}"
        return f"its answer has {length} bytes, and --most is {self.folder.most}{others}"

    def last_question(self, questions: Sequence[TimedFile]) -> Optional[Tuple[TimedFile, Lacks]]:
        """The last one of some questions of a site that counts, and what that site lacks."""
        for question in questions:
            try:
                lacks = self.lacks(question)
                if self.folder.senders:
                    self.folder.senders.refuse_older(question.site, question.time)
                return question, lacks
            except Older as older:
                # So are the others.
                self.folder.pass_over(question, older, self.screen)
                break
            except Unfit as unfit:
                # Its site puts it into the folder again, or another one put it there.
                self.folder.pass_over(question, unfit, self.screen)
                self.unsure.add(question.site)
        return None

    def lacks(self, question: TimedFile) -> Lacks:
        """What a question lacks, which is read if that is not known."""
        known = self.asked.lacks.get(question.digest) or self.asked.lacks_before.get(question.digest)
        if known is None or self.folder.check_size(question, MOST_OF_QUESTION) != known.size:
            data = self.copied(question)
            theirs = content_of_summary(data)
            if theirs is None:
                raise Unfit("is no summary")
            known = Lacks(len(data))
            lacking = self.content.beyond(theirs)
            if len(lacking):
                known = Lacks(len(data), digest_of(lacking.summary())[:SHORT], lacking.size())
            else:
                os.unlink(self.copy_of(question))
        self.asked.lacks[question.digest] = known
        return known

    def copy_of(self, question: TimedFile) -> bytes:
        return os.path.join(self.room, b"question-" + question.digest.encode())

    def copied(self, question: TimedFile) -> bytes:
        """The bytes of a question, which is copied: others may write to the folder meanwhile."""
        data = self.folder.read(question, self.room, MOST_OF_QUESTION)
        write_file(self.room, os.path.basename(self.copy_of(question)), data)
        return data

    def theirs(self, question: TimedFile) -> Content:
        """What the site of a question has that was read by this call or another one."""
        if os.path.exists(self.copy_of(question)):
            with open(self.copy_of(question), "rb") as file:
                return content_of(entries_in(file.read()))
        return content_of(entries_in(self.copied(question)))

    def answer_if_possible(self, question: TimedFile, lacks: Lacks) -> None:
        """Answers, or says why that failed. The question is not to blame."""
        try:
            self.answer_one(question, lacks)
        except (OSError, Failed) as fault:
            self.unsure.add(question.site)
            self.say(fault)
        except Unfit as unfit:
            self.unsure.add(question.site)
            self.folder.pass_over(question, unfit, self.screen)

    def answer_one(self, question: TimedFile, lacks: Lacks) -> None:
        """Answers with what the site lacks, unless the folder has this answer."""
        self.asked.note(question.site, "asked", time.strptime(question.time, TIME))
        there = [one.name for one in self.answers.get(question.site, []) if self.is_answer(one, question, lacks)]
        self.kept.update(there[:1])
        if lacks.has == NOTHING or there:
            return
        theirs = self.theirs(question)
        lacking = self.content.beyond(theirs)
        # The answer is written, read for what it has and for its digest, and copied.
        self.screen.begin(f"answering {question.site}", 4 * lacking.size())
        self.make_answer(self.room, theirs, lacking)
        self.remove_answers(question.site)
        with open(os.path.join(self.room, b"answer"), "rb") as file:
            digest = digest_in(file, 0, lacking.size(), self.screen.moved).hex()
            name = answer_name(self.folder.site, question, lacks.has, digest)
            file.seek(0)
            self.folder.put(self.moved_chunks(file), name, lacking.size())
        self.kept.add(name)
        self.asked.note(question.site, "answered", time.gmtime())
        self.lines.append(line_of(f"answered {question.site} {name}", "answered", site=question.site, file=name))

    def is_answer(self, answer: Answer, question: TimedFile, lacks: Lacks) -> bool:
        """Whether an answer of this site is whole, and has what a question lacks."""
        is_this = (answer.question, answer.has) == (question.digest[:SHORT], lacks.has)
        return is_this and self.folder.size(answer.name) == lacks.length and self.folder.has_own(answer)

    def remove_answers(self, site: str) -> None:
        """Removes answers to a site before another one takes their place."""
        answers = self.answers.pop(site, [])
        self.folder.look_at(answers, self.screen)
        for answer in answers:
            self.folder.remove(answer.name, self.screen)

    def moved_chunks(self, file: BinaryIO) -> Iterator[bytes]:
        for chunk in chunks_in(file):
            yield chunk
            self.screen.moved(len(chunk))

    def make_answer(self, room: bytes, theirs: Content, lacking: Content) -> None:
        """Makes the archive of what is lacking, of those files that have some of it. What the other site retires it
        does not lack."""
        write_file(room, b"theirs", summary_with_retired(theirs))
        names, moved = [], watched(self.screen, room)
        for number, file in enumerate(self.archive.files):
            if len(file.content.beyond(theirs)):
                names.append(f"lacking-{number}")
                self.program.run_over(file.path, "delta", "theirs", names[-1], folder=room, moved=moved)
        paths, answer = [os.path.join(room, name.encode()) for name in names], os.path.join(room, b"answer")
        if len(paths) > 1:
            self.program.merge(Merge(paths, os.path.join(room, b"all"), moved))
            for path in paths:
                os.unlink(path)
            paths = [os.path.join(room, b"all")]
        os.replace(paths[0], answer)
        with open(answer, "rb") as made:
            self.screen.moved(lacking.size())
            if content_in(made, self.screen.moved) != lacking:
                raise Failed(f"a slice of {shown(self.archive.path)} changed; `symarch-keep check` names it")

    # ---- what is done with

    def clear(self) -> None:
        """Removes answers that were joined or are late, what was not whole for a day, this site's files that are no
        longer right, and what a kill left."""
        site = self.folder.site
        own = [one for answers in self.answers.values() for one in answers]
        self.stays = self.kept | self.telling.kept | {one.name for one in own if one.to in self.unsure}
        self.folder.look_at((one for one in own if one.name not in self.stays), self.screen)
        going = {*self.done, *self.telling.own, *self.folder.done, *(one.name for one in own)}
        timed: List[Sent] = [*self.folder.questions, *self.folder.every_mark]
        timed += [one for one, _ in self.folder.untimely]
        going.update(one.name for one in timed if one.site == site)
        signatures = self.folder.own_signatures - self.folder.signatures_that_stay(self.stays)
        for name in [*sorted(going - self.stays), *sorted(signatures)]:
            self.folder.remove(name, self.screen)
        self.folder.remove_part()

    def save(self) -> None:
        """Keeps what was asked, read and sent."""
        self.asked.forget_others()
        self.asked.save(self.room)
        if self.folder.senders:
            self.folder.senders.end(self.room, self.stays)

    def say_what_is_lost(self) -> None:
        lost = lost_lines(self.archive.lost.content)
        if lost:
            how = "`symarch-keep status` names them, and `status --accept` gives up those that no site has"
            self.screen.fail(f"{shown(self.archive.path)}: lost: {counted(lost)}; {how}")


def summary_with_retired(content: Content) -> bytes:
    """The summary of a content and of the slices that it retires, which a delta against it leaves out."""
    gone = [ADMISSION + entry for entry in content.retired if entry not in content.held]
    return summary_of(sorted(content.entries() + gone))


def content_of_summary(data: bytes) -> Optional[Content]:
    """The content of which these bytes are the summary; None if they are none."""
    with contextlib.suppress(Malformed):
        return content_of(entries_in(data))
    return None


def write_file(room: bytes, name: bytes, data: bytes) -> None:
    path = os.path.join(room, name)
    with about(path), open(path, "wb") as file:
        file.write(data)
