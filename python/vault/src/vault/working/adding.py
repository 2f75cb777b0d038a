"""Parts are made of files in a working folder."""

import stat

from vault.errors import MisusedError, RefusedError, UnreachableError
from vault.files.names import part_name, usable, why_not
from vault.files.text import quoted, shown
from vault.protocol.grammar import IS_THERE, NO_PLACE
from vault.protocol.words import place_word
from vault.working.remembered import Entry
from vault.working.found import Found
from vault.working.modes import covering
from vault.working.renamed import Renamed, sha256_of

TRIES = 5


class Adding(Found):
    """A working folder whose files become parts."""

    def add(self, name: str) -> str:
        """Makes the part of a file that has none, and answers its place."""
        if tracked := self.folder.tracked(name, self.folder.alike()):
            raise MisusedError(f"{name} is {self.folder.files[tracked].place} already. `vault put {self.folder.path}` puts it.")
        assembly = self._assembly_for(name)
        seen = self.folder.seen(name)
        if seen is None or not stat.S_ISREG(seen.st_mode):
            raise MisusedError(f"{name} is no file in {self.folder.path}: it is not there, or is a link or a folder.")
        renamed = Renamed(self.folder)
        if renamed.renamed(name):
            raise MisusedError(f"{shown(name)} {renamed.in_words(name, quoted(str(self.folder.at(name))))}.")
        place = self._made_before(name) or self._make_part(assembly, name)
        self.folder.files[name] = Entry(place, 0, "")
        self.folder.making.pop(name, None)
        self.folder.save()
        return place

    def advice_on(self, name: str, path: str) -> str:
        """What becomes of a folder that is no assembly's as far as this one knows, and what its designer does, in words. The path is the one by
        which the designer names it."""
        own, above = self.folder.uppermost(name)
        said = "is the folder of no assembly, so no file in it is a part's"
        if not usable(own) or not self.folder.may_have_assemblies(above):
            return f"{said}, and it can't be one. Move its files into an assembly's folder"
        inside, names = above.rstrip("/"), self.client.names(above) if self.client.is_assembly(above) else []
        if own in names and self.client.is_assembly(f"{inside}/{own}"):
            return (f"is not known here as the folder of {inside}/{own}: `vault get {self.folder.place} --to {quoted(str(self.folder.path))}` has"
                    " this folder know that")
        if renamed := self._renamed_folder(name):
            return f"has the files of {shown(renamed)}, which is missing here: give it that name again, since an assembly keeps its name"
        return f"{said}: `vault add {path}` makes {'an assembly' if inside else 'a project'} of it, and of all that is in it"

    def _renamed_folder(self, name: str) -> str:
        """The folder of an assembly that is missing here, if a folder beside it has a file of its, by name and bytes."""
        above = name.rpartition("/")[0]
        for each in self.folder.missing_folders():
            files = [file for file in self.folder.files if file.startswith(each + "/")] if each.rpartition("/")[0] == above else []
            for file in files:
                entry, here = self.folder.files[file], name + file[len(each):]
                seen = self.folder.seen(here)
                if seen is not None and entry.sha256 and seen.st_size == entry.size and sha256_of(self.folder, here) == entry.sha256:
                    return each
        return ""

    def made_again(self, name: str) -> bool:
        """Makes the part of a file again, if the vault, which came back from a backup, has it no more. Whether it did."""
        entry = self.folder.files[name]
        if self.folder.seen(name) is None or self.client.is_there(entry.place):
            return False
        above = entry.place.rpartition("/")[0]
        try:
            self.client.make(entry.place, (covering(self._claims(), entry.place) + [""])[0])
        except RefusedError as refused:
            if refused.code != NO_PLACE:
                raise
            raise RefusedError(f"{above} isn't in the vault any more, which came back from a backup: `vault"
                               f" {'nest' if above.count('/') > 2 else 'make'} {above}` makes it again.", refused.code) from refused
        self.folder.files[name] = Entry(entry.place, 0, "", name=entry.name)
        self.folder.save()
        return True

    def _assembly_for(self, name: str) -> str:
        """The assembly in which the part of a file is made."""
        above, _, file = name.rpartition("/")
        assembly, refused = self.folder.folders.get(above), f"No part can be made of {name!a}"
        if assembly is None:
            uppermost = self.folder.path / self.folder.uppermost_path(above)
            raise MisusedError(f"{refused}: {above!a} {self.advice_on(above, quoted(shown(str(uppermost))))}.")
        if not self.folder.may_have_parts(above):
            raise MisusedError(f"{refused}: it stands in no assembly's folder. `vault make {assembly.rstrip('/')}/NAME` makes"
                               f" {'a project' if assembly == '/' else 'an assembly'}; move it into an assembly's folder.")
        if not usable(file):
            raise MisusedError(f"{refused}: that name {why_not(file)}. Rename it.")
        return assembly

    def _made_before(self, name: str) -> str:
        """The part that was being made of a file when the client was stopped, if it came to be and nobody has put anything there."""
        place = self.folder.making.get(name, "")
        if not place or any(entry.place == place for entry in self.folder.files.values()):
            return ""
        try:
            return place if self.client.survey(place)[1].get(place) == 0 else ""
        except RefusedError:
            return ""

    def _make_part(self, assembly: str, name: str) -> str:
        """Makes a part in an assembly, by the name of a file. It is remembered before that it is being made."""
        for _ in range(TRIES):
            place = place_word(f"{assembly}/{part_name(name.rpartition('/')[2], self.client.names(assembly))}")
            claim = (covering(self._claims(), place) + [""])[0]
            self.folder.making[name] = place
            self.folder.save()
            try:
                self.client.make(place, claim)
                return place
            except (RefusedError, UnreachableError) as refused:
                del self.folder.making[name]
                self.folder.save()
                if refused.code != IS_THERE:
                    raise
        raise RefusedError(f"Others make parts of that name in {assembly} at this moment. Try again.")
