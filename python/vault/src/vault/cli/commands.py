"""The commands of the program `vault`, by their names. Each does what it says, and answers the sentence for it and what it found. Only what a
command needs is loaded: that takes longer than a question to a server."""

from importlib import import_module
from typing import TYPE_CHECKING, Dict, Type

from vault.cli.output import Output, Told
from vault.cli.words import (AddWords, BeforeWords, CheckinWords, ClaimWords, DraftsWords, DraftWords, ExtendWords, GetWords, GiveWords,
                             HelloWords, ImportWords, ItemsWords, MakeWords, MineWords, NoteWords, NoWords, PlaceWords, PutWords, StatusWords,
                             StoreWords, WaitWords, Words)

if TYPE_CHECKING:
    from vault.client import Client


class Command:
    """A command: the words that it wants, and what does it, a function of a module of these."""

    def __init__(self, words: Type[Words], module: str, function: str):
        self.words, self.module, self.function = words, module, function

    def told(self, client: "Client", words: Words, output: Output) -> Told:
        """What came of the command, said with its words."""
        assert isinstance(words, self.words)
        told: Told = getattr(import_module(f"vault.cli.{self.module}"), self.function)(client, words, output)
        return told


COMMANDS: Dict[str, Command] = {
    "vaults": Command(NoWords, "place_commands", "vaults"),
    "hello": Command(HelloWords, "place_commands", "hello"), "tree": Command(PlaceWords, "place_commands", "tree"),
    "make": Command(MakeWords, "place_commands", "make"), "nest": Command(MakeWords, "place_commands", "nest"),
    "checkout": Command(ItemsWords, "claim_commands", "checkout"), "extend": Command(ExtendWords, "claim_commands", "extend"),
    "put": Command(PutWords, "part_commands", "put"), "get": Command(GetWords, "part_commands", "get"),
    "history": Command(PlaceWords, "part_commands", "history"), "checkin": Command(CheckinWords, "claim_commands", "checkin"),
    "abandon": Command(ClaimWords, "claim_commands", "abandon"), "give": Command(GiveWords, "claim_commands", "give"),
    "note": Command(NoteWords, "claim_commands", "note"), "wait": Command(WaitWords, "claim_commands", "wait"),
    "mine": Command(MineWords, "claim_commands", "mine"), "who": Command(PlaceWords, "claim_commands", "who"),
    "hold": Command(ItemsWords, "claim_commands", "hold"), "drafts": Command(DraftsWords, "part_commands", "drafts"),
    "draft": Command(DraftWords, "part_commands", "draft"), "forget": Command(ClaimWords, "claim_commands", "forget"),
    "store": Command(StoreWords, "store_commands", "store"), "status": Command(StatusWords, "folder_commands", "status"),
    "before": Command(BeforeWords, "folder_commands", "before"), "add": Command(AddWords, "folder_commands", "add"),
    "import": Command(ImportWords, "import_commands", "import_folder"),
}
