"""The changed files of a working folder are put, and checked in."""

import contextlib
from pathlib import Path
from typing import Dict, Iterable, List, Optional, Sequence

from vault.errors import MisusedError, RefusedError, VaultError
from vault.files.names import usable
from vault.protocol.grammar import DRAFTS
from vault.store.card import note_word
from vault.store.naming import named_by, read_name
from vault.store.parts import Version
from vault.working.found import Saved, State, was_put
from vault.working.modes import covering
from vault.working.putting_many import PuttingMany, ToPut
from vault.working.renamed import is_beside
from vault.working.told import NOT_COVERED, REASONS, Done, another, in_words, put_already, reason_against


class Putting(PuttingMany):
    """A working folder whose files are put."""

    def put(self, claim: str = "", note: str = "", in_parts: bool = False) -> Done:
        """Puts each changed file that a held check-out of this designer covers, or the check-out that is named. So it does with one that was
        put and isn't changed any more: its draft is put anew. More than a check-out takes are refused, or the first of them are put."""
        done, claims = Done(), self._claims()
        if claim and claim not in claims:
            raise MisusedError(f"{claim} is no held check-out of yours at {self.folder.place}. `vault mine` shows those that there are.")
        saved = self._saved(claims)
        wanted: List[ToPut] = []
        try:
            for state in self._states(claims, self._numbers(), saved):
                fitting = [name for name in covering(claims, state.place) if name == (claim or name)]
                there = saved.get(state.place)
                wanted += self._put_or_leave(state, fitting, there if there is not None and there.claim in fitting else None, done)
            fitting_ones = self._fitting(wanted, in_parts, done)
            self._put_names(claims, claim, saved, done)
            self._put_wanted(fitting_ones[:DRAFTS - len(done.named)] if in_parts else fitting_ones, note, done)
            done.more = len(wanted) > len(done.files) + done.failed
        except VaultError as error:
            if done.files:
                error.put_behind(put_already(self.folder, done.files))
                error.fields.update(files=done.files, drafts=done.drafts)
            raise
        self.settle_modes(claims)
        self.folder.save()
        return done

    def checkin(self, note: Optional[str], claim: str = "", in_parts: bool = False) -> Done:
        """Puts what was changed, and checks in the check-outs that these files are drafts of; of more than these take, in several check-outs of the
        same items, if that is wanted."""
        if note is not None:
            note_word(note)
        items, done = self._claims() if in_parts else {}, self._checkin_once(note, claim, in_parts)
        while done.more:
            asked = self.client.checkout(list(items[done.claims[-1]]))
            items[asked.claim] = items[done.claims[-1]]
            if not asked.held:
                done.left.append((str(self.folder.path), f"has more that is changed: {asked.sentence(self.client.designer)} Wait for it, and say it"
                                                         " again"))
                return done
            with done.told_with_errors():
                next_done = self._checkin_once(note, asked.claim, in_parts)
            next_done.files, next_done.claims = done.files + next_done.files, done.claims + next_done.claims
            next_done.versions += done.versions
            done = next_done
        return done

    def _checkin_once(self, note: Optional[str], claim: str, in_parts: bool) -> Done:
        """Puts what was changed, as much as its check-outs take, and checks these in."""
        done = self.put(claim, note or "", in_parts)
        try:
            self._check_in_all(note, done)
        except VaultError as error:
            put = [name for name in done.files if self.folder.files[name].claim not in done.claims]
            if put:
                error.put_behind(put_already(self.folder, put))
                error.fields.update(files=put)
            if done.claims:
                error.put_behind(done.checked_in())
                error.fields.update(claims=done.claims, versions=done.versions)
            raise
        finally:
            self._settle_checked_in(done.claims)
        return done

    def _check_in_all(self, note: Optional[str], done: Done) -> None:
        """Checks in the check-outs that the files are drafts of, if these have no other drafts."""
        claims = sorted({self.folder.files[name].claim for name in done.files + done.drafts} | set(done.named.values()))
        if not claims:
            raise RefusedError(" ".join(filter(None, (f"No file of {self.folder.path} is a draft in a held check-out of yours.",
                                                      in_words(done.left[:REASONS]), f"`vault status {self.folder.path}` shows how they stand."))))
        unread = next((claim for claim in claims if claim in done.unread), "")
        if unread:
            raise RefusedError(f"{unread} takes in a file that can't be put, so nothing was checked in. {in_words([done.unread[unread]])}")
        self._look_for_others(claims, done)
        other = next((claim for claim in claims if claim in done.others), "")
        if other:
            raise RefusedError(f"{other} has a draft that is not what is here, so nothing was checked in. {in_words([done.others[other]])}"
                               f" `vault checkin {other}` checks it in as it is.")
        for each in claims:
            self._check_in(each, note, done)

    def renamed(self, place: str, name: str, sha256: str, claim: str) -> None:
        """Knows a part's file by a new name from now on, if that is of no part, and the file of the earlier one in the same folder is missing. What
        was put of it is a draft."""
        before = next((each for each, entry in self.folder.files.items() if entry.place == place), "")
        if not before or name in self.folder.files or not is_beside(before, name) or self.folder.seen(before) is not None:
            return
        entry = self.folder.files[name] = self.folder.files.pop(before)
        entry.draft, entry.claim, entry.size = sha256, claim, -1
        self.folder.save()

    def _put_or_leave(self, state: State, fitting: List[str], there: Optional[Saved], done: Done) -> List[ToPut]:
        """What is put of a file: it, if it was changed, or was put and is another now, unless it is the draft that is there, or a reason is
        against it."""
        entry = self.folder.files[state.file]
        if state.draft and there is not None:
            entry.draft, entry.claim = there.version.sha256, there.claim
            done.drafts.append(state.file)
            return []
        put_before = there is not None and was_put(entry, there.claim, there.version)
        if not state.changed and not put_before:
            if there is not None:
                done.left.append((state.file, f"has another draft in {there.claim}: `vault draft {there.claim} {state.place} --to OTHER-FILE`"
                                              f" writes it, and `vault checkin {there.claim}` checks it in"))
            return []
        reason = reason_against(state, fitting, there, put_before, self.folder)
        if not fitting and not state.claim and reason.startswith(NOT_COVERED) and (waiting := covering(self._waiting(), state.place)):
            reason = f"{waiting[0]} takes it in, and waits still: `vault wait {waiting[0]}` tells when it is held"
        if not reason and self._is_another(state):
            reason = another(state)
        if not reason:
            known = there.version.card.name if there is not None and there.version.card is not None else entry.name
            return [ToPut(state.file, fitting[0], known if usable(known) else self.folder.at(state.file).name)]
        done.left.append((state.file, reason))
        if state.fault:
            self._unread(state, fitting, done)
        elif there is not None:
            done.others.setdefault(there.claim, (state.file, reason))
        return []

    def _waiting(self) -> Dict[str, Sequence[str]]:
        """The check-outs of this designer at the folder's place that wait still, each with its items."""
        if self.queued is None:
            self.queued = {holder.claim: holder.items for holder in self.client.holders(self.folder.place)
                           if not holder.held and holder.is_check_out_of(self.client.designer)}
        return self.queued

    @staticmethod
    def _unread(state: State, fitting: List[str], done: Done) -> None:
        """Notes that the file that was left last can't be read, so that its check-outs aren't checked in without it."""
        done.failed += 1
        for claim in fitting:
            done.unread.setdefault(claim, done.left[-1])

    def _look_for_others(self, claims: Iterable[str], done: Done) -> None:
        """Finds drafts in these check-outs that are not what is here, also of files that weren't changed, or that this folder hasn't got."""
        here = {entry.place: name for name, entry in self.folder.files.items()}
        for claim in claims:
            for place, content in self.client.all_drafts(claim).items():
                name = here.get(place, "")
                if named_by(place) in done.named and read_name(content) == self.folder.naming[named_by(place)]:
                    continue
                if not (name and was_put(self.folder.files[name], claim, Version(place, 0, content))):
                    done.others.setdefault(claim, (name or place, f"has {'another' if name else 'a'} draft in {claim}: `vault draft {claim}"
                                                                  f" {place} --to OTHER-FILE` writes it"))

    def _check_in(self, claim: str, note: Optional[str], done: Done) -> None:
        """Checks one check-out in."""
        if note is not None:
            self.parts.set_note(claim, note)
        here = {entry.place: Path(self.folder.to_read(name)) for name, entry in self.folder.files.items() if entry.claim == claim}
        done.versions += self.parts.checkin(claim, here) - list(done.named.values()).count(claim)
        done.claims.append(claim)

    def _settle_checked_in(self, claims: List[str], more: bool = False) -> None:
        """Remembers which versions the files are that were drafts in check-outs that are checked in; where more are to come, that is written down
        with these. If the server is lost meanwhile, the next look at the folder finds out."""
        if not claims:
            return
        with contextlib.suppress(VaultError, OSError):
            self._settle_drafts(claims)
            self._settle_names()
            for name, entry in self.folder.files.items():
                put = self.put_as.get(name)
                if put is not None and entry.size < 0 and put.sha256 == entry.sha256:
                    self.folder.remember_look(name, put.seen, put.looked)
                if entry.claim in claims:
                    entry.draft = entry.claim = ""
            if more:
                self.folder.save_now_and_then()
            else:
                self.settle_modes(self._claims())
                self.folder.save()
