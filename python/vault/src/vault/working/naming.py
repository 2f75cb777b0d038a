"""The real names of projects and assemblies are put, with the files of a working folder."""

from typing import Dict, List, Sequence

from vault.errors import RefusedError
from vault.protocol.grammar import IS_THERE
from vault.store.naming import is_of_names, name_place, spell_name
from vault.working.found import Found, Saved
from vault.working.modes import covering
from vault.working.told import Done


class Naming(Found):
    """A working folder some of whose folders have names that the vault doesn't know yet."""

    def _put_names(self, claims: Dict[str, Sequence[str]], wanted: str, saved: Dict[str, Saved], done: Done) -> None:
        """Puts each real name that waits for that, into a held check-out that covers its place: the one that is wanted, or else the only one."""
        for place, name in sorted(self.folder.naming.items()):
            kept = name_place(place)
            fitting = [claim for claim in covering(claims, place) if claim == (wanted or claim)]
            if len(fitting) != 1:
                done.left.append((self.folder_name(place), f"has a name that the vault doesn't know yet: {self._against(place, fitting)}"))
                continue
            there = saved.get(kept)
            if there is None or (there.claim, there.version.content) != (fitting[0], spell_name(name)):
                self._make_name_place(kept, fitting[0])
                self.client.put(kept, spell_name(name), fitting[0])
            done.named[place] = fitting[0]

    def folder_name(self, place: str) -> str:
        """The folder of an assembly here, or its place."""
        return next((name for name, each in self.folder.folders.items() if each == place), place)

    @staticmethod
    def _against(place: str, fitting: List[str]) -> str:
        if fitting:
            return f"{' and '.join(fitting)} take it in: name one with `--claim`"
        return f"no held check-out of yours takes it in: `vault checkout w:{place}` asks for one"

    def _make_name_place(self, kept: str, claim: str) -> None:
        """Makes the part that keeps a name, where it isn't there."""
        above = kept.rpartition("/")[0]
        for place in ([above] if is_of_names(above) else []) + [kept]:
            try:
                self.client.make(place, claim)
            except RefusedError as refused:
                if refused.code != IS_THERE:
                    raise
