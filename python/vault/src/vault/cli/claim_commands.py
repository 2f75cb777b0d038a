"""Commands of the program `vault` that ask for a claim or name one."""

import os
import sys
import time
from typing import Callable, List

from vault.cli.output import Output, Told, counted
from vault.cli.words import CheckinWords, ClaimWords, ExtendWords, GiveWords, ItemsWords, MineWords, NoteWords, PlaceWords, WaitWords
from vault.client import Client
from vault.client.memory import Claim
from vault.errors import MisusedError, RefusedError, UnreachableError
from vault.files.text import moment
from vault.protocol.connection import Patience
from vault.protocol.grammar import CHECKOUT, GONE
from vault.protocol.standing import Holder, Standing, who_does
from vault.protocol.transport import NotLetInError
from vault.protocol.words import name_word

ASKED_WHILE_HOLDING_SECONDS = 30.0
FIRST_PAUSE_SECONDS = 1.0
LONGEST_PAUSE_SECONDS = 60.0
# Of how many parts the drafts of a check-out are named.
FEW_DRAFTS = 10
KEPT_OPEN_SECONDS = 5.0
# How long the answer to `wait` may take before it is asked anew. An answer that comes sooner than the second number didn't wait.
ANSWERED_WITHIN_SECONDS = 90.0
SOON_SECONDS = 1.0


def settle_folders(client: Client) -> None:
    """Settles which files are writable in this designer's working folders, if there are any."""
    folders = client.folders()
    if folders:
        from vault.working import modes
        modes.settle_folders(client, folders)


def told_standing(standing: Standing, designer: str) -> Told:
    """A standing, who is in the way, and what to do if it is queued."""
    wait = "" if standing.held else f"`vault wait {standing.claim}` waits."
    said = (standing.sentence(designer), standing.ring_in_words(designer), wait)
    return " ".join(filter(None, said)), standing.fields()


def checkout(client: Client, words: ItemsWords, _output: Output) -> Told:
    """Asks for a check-out."""
    standing = client.checkout(words.items)
    settle_folders(client)
    return told_standing(standing, client.designer)


def extend(client: Client, words: ExtendWords, _output: Output) -> Told:
    """Asks for more items."""
    standing = client.extend(words.claim, words.items)
    settle_folders(client)
    return told_standing(standing, client.designer)


def checkin(client: Client, words: CheckinWords, output: Output) -> Told:
    """Makes versions of the drafts of a check-out, or of a working folder's files, with a note if one is given."""
    if not CHECKOUT.fullmatch(words.claim):
        from vault.cli.folder_commands import checkin_folder, is_folder
        if is_folder(words.claim):
            return checkin_folder(client, words, output)
    from vault.store.parts import parts_of_program
    parts = parts_of_program(client, output.meter)
    noted = parts.set_note(words.claim, words.note) if words.note is not None else 0
    made = parts.checkin(words.claim)
    settle_folders(client)
    if words.note is not None and noted < made:
        output.notice(f"{noted} of {made} versions have the note: the others are no files in a store, or the server is too old to tell of them.")
    versions = counted(made, "new version") if made else "no new versions"
    return f"{words.claim} is checked in: {versions}.", {"claim": words.claim, "versions": made, "noted": noted}


def abandon(client: Client, words: ClaimWords, _output: Output) -> Told:
    """Gives a check-out up."""
    client.abandon(words.claim)
    settle_folders(client)
    return f"{words.claim} is given up, with its drafts.", {"claim": words.claim}


def wait(client: Client, words: WaitWords, output: Output) -> Told:
    """Waits until a claim is held, and shows who is before it, and where designers wait for each other in a ring."""
    patience, told = Patience(words.at_most, FIRST_PAUSE_SECONDS, LONGEST_PAUSE_SECONDS), ""
    while True:
        standing = asked_again(client, words.claim, patience, output)
        if standing.gone:
            raise RefusedError(f"{words.claim} is gone: it was checked in or given up.", GONE)
        if standing.held:
            settle_folders(client)
            return told_standing(standing, client.designer)
        line = in_a_row(client, standing)
        if patience.over():
            raise queued_still(line, standing)
        if line != told:
            output.notice(line)
            told = line
        wait_a_turn(client, words.claim, patience)


def queued_still(line: str, standing: Standing) -> RefusedError:
    """Says that a claim is queued at the end of the time for which one waits."""
    refused = RefusedError(f"{line} Nothing was changed; `vault wait {standing.claim}` waits on.")
    refused.fields = standing.fields()
    return refused


def wait_a_turn(client: Client, claim: str, patience: Patience) -> None:
    """Waits as long as the server lets one wait for an answer. A server may answer at once that a claim is queued, since it is older or
    too many wait already. It is then asked again after a growing pause."""
    began = time.monotonic()
    try:
        standing = client.turn(claim, max(0.01, min(patience.left(), ANSWERED_WITHIN_SECONDS)))
    except UnreachableError:
        standing = None
    if standing is not None and (standing.held or standing.gone):
        return
    if time.monotonic() - began < SOON_SECONDS:
        pause(client, patience)
    else:
        patience.next = FIRST_PAUSE_SECONDS


def asked_again(client: Client, claim: str, patience: Patience, output: Output) -> Standing:
    """How a claim stands. If the server is away, this says so once, and asks until it answers or the time is over."""
    away = False
    while True:
        try:
            return client.standing(claim)
        except UnreachableError as error:
            if patience.over() or isinstance(error, NotLetInError):
                raise
            if not away:
                output.notice(f"{error} `vault wait {claim}` goes on, and the check-out stands meanwhile.")
            away = True
            pause(client, patience)


def pause(client: Client, patience: Patience) -> None:
    """Waits a little; for a long pause it leaves the server, since a connection takes one of its workers."""
    if patience.next > KEPT_OPEN_SECONDS:
        client.close()
    patience.pause()


def in_a_row(client: Client, standing: Standing) -> str:
    """A claim and those before it, in words, as far as the server tells."""
    if standing.before:
        said = (standing.chain_in_words(client.designer), standing.ring_in_words(client.designer))
        return " ".join(filter(None, said))
    return ", ".join(each.sentence().rstrip(".") for each in client.chain(standing.claim)) + "."


def give(client: Client, words: GiveWords, output: Output) -> Told:
    """Gives a check-out to another designer; first asks where no designer by that name was here yet."""
    if not words.yes:
        from vault.store.designers import has_been_there
        if words.receiver != client.designer and not has_been_there(client, name_word(words.receiver)):
            output.agree(f"Nobody called {words.receiver} has a check-out or a version in this vault so far: look whether the name is right. Who has"
                         f" {words.claim} then is alone able to give it back.", False)
    client.give(words.claim, words.receiver)
    settle_folders(client)
    return (f"{words.claim} is {words.receiver}'s now, with its drafts. `vault mine {words.claim}` shows it to {words.receiver}.",
            {"claim": words.claim, "receiver": words.receiver})


def note(client: Client, words: NoteWords, _output: Output) -> Told:
    """Writes a note on a check-out, or reads it."""
    if words.text is not None:
        client.set_note(words.claim, in_utf8(words.text))
        return f"{words.claim} has {'the' if words.text else 'no'} note now.", {"claim": words.claim, "note": words.text}
    found = readable(client.note(words.claim))
    return found or f"{words.claim} has no note.", {"claim": words.claim, "note": found}


def in_utf8(text: str) -> bytes:
    """The bytes of a note, if it is text."""
    try:
        return text.encode("utf-8")
    except UnicodeEncodeError as error:
        raise MisusedError(f"The note {text!a} is no text in UTF-8. Write it again.") from error


def readable(note: bytes) -> str:
    """A note as text, or its bytes in hexadecimal if it can't be shown as text."""
    text = note.decode("utf-8", "replace")
    return text if text.isprintable() and "\ufffd" not in text else "0x" + note.hex()


def mine(client: Client, words: MineWords, _output: Output) -> Told:
    """Shows the check-outs of a designer, and those remembered that are gone."""
    found = client.mine(words.claims)
    fields = [{**standing.fields(), "items": claim.items, "drafts": drafts_of(standing, claim), "kept": sorted(claim.drafts),
               "given": claim.given or None} for standing, claim in found]
    from vault.cli.counting import first_rows
    shown, left = first_rows(found, words.all)
    lines = [mine_line(standing, claim, client.designer, words.all) for standing, claim in shown]
    lines += [f"{counted(left, 'more check-out')}: `--all` lists them."] if left else []
    return "\n".join(lines or [f"You have no check-outs{' from here' if client.line.older else ''}."]), {"claims": fields}


def drafts_of(standing: Standing, claim: Claim) -> List[str]:
    """The parts of which a check-out has drafts, as the server says, or else of which copies are kept here."""
    return sorted(claim.drafts) if standing.drafts is None else list(standing.drafts)


def mine_line(standing: Standing, claim: Claim, designer: str, every: bool = False) -> str:
    """One check-out in words."""
    drafts = drafts_in_words(drafts_of(standing, claim), every)
    asked = f" Asked for {' '.join(claim.items)}{drafts}." if claim.items else f" Has{drafts[1:]}." if drafts else ""
    given = f" You gave it to {claim.given}." if claim.given else ""
    kept = (standing.gone or standing.anothers) and claim.drafts
    rest = f" `vault drafts {standing.claim} FOLDER` writes the copies that are kept." if kept else ""
    return standing.sentence(designer) + given + asked + rest


def drafts_in_words(places: List[str], every: bool) -> str:
    """Of which parts a check-out has drafts, in words: of many, how many these are."""
    if len(places) > FEW_DRAFTS and not every:
        return f", {counted(len(places), 'draft')} (`--all` names them)"
    return "".join(f", draft of {place}" for place in places)


def who(client: Client, words: PlaceWords, output: Output) -> Told:
    """Shows who holds what at a place, above it or beneath it, and who waits for what."""
    found = client.who(words.place)
    fields = [{**holder.fields(), "since": moment(since)} for holder, since in found]
    from vault.cli.counting import first_rows
    shown, left = first_rows(found, words.all)
    more = [f"{counted(left, 'more claim')} {'comes' if left == 1 else 'come'} behind these: `--all` lists them."] if left else []
    if found and output.tables:
        output.table(("claim", "designer", "standing", "items", "known here since"), [who_row(holder, since) for holder, since in shown])
        sentence = "".join(more)
    else:
        lines = [who_line(holder, since, client.designer) for holder, since in shown] + more
        sentence = "\n".join(lines or [f"Nobody has anything at {words.place}, above it or beneath it, and nobody waits for it."])
    return sentence, {"place": words.place, "claims": fields}


def who_row(holder: Holder, since: float) -> List[str]:
    """A claim in columns."""
    standing = "held" if holder.held else f"queued behind {holder.behind}"
    return [holder.claim, holder.owner, standing, " ".join(holder.items), in_clock_words(since)]


def who_line(holder: Holder, since: float, designer: str) -> str:
    """A claim in words."""
    what = who_does(holder.owner, "hold" if holder.held else "wait", designer) + ("" if holder.held else f" behind {holder.behind} for")
    return f"{holder.claim}: {what} {' '.join(holder.items)}, known here since {in_clock_words(since)}."


def in_clock_words(seconds: float) -> str:
    """A time in words."""
    return moment(seconds).replace("T", " ").replace("Z", " UTC")


def forget(client: Client, words: ClaimWords, _output: Output) -> Told:
    """Forgets a check-out that is gone."""
    client.forget(words.claim)
    return f"{words.claim} is forgotten here, with the copies of its drafts.", {"claim": words.claim}


def hold(client: Client, words: ItemsWords, output: Output) -> Told:
    """Holds items until standard input ends."""
    standing = client.hold(words.items)
    patience = Patience(float("inf"), 0.2, 10.0)
    while not standing.held:
        output.progress(standing.sentence(client.designer))
        patience.pause()
        standing = still(client, standing)
    held = standing.sentence() + " It ends with this command: end its standard input to let go."
    if output.as_json:
        output.say(False, held, standing.fields())
    else:
        output.notice(held)
    until_input_ends(lambda: still(client, standing))
    still(client, standing)
    return f"{standing.claim} was held until now.", {"claim": standing.claim}


def until_input_ends(asked: Callable[[], Standing]) -> None:
    """Waits for the end of standard input, and now and then asks the server something, so that it doesn't take the connection for dead. A
    thread reads, since not every system can wait for standard input and a time at once."""
    import threading
    reader = threading.Thread(target=read_to_the_end, daemon=True)
    reader.start()
    while True:
        reader.join(ASKED_WHILE_HOLDING_SECONDS)
        if not reader.is_alive():
            return
        asked()


def read_to_the_end() -> None:
    """Reads standard input and drops it."""
    while os.read(sys.stdin.fileno(), 65536):
        pass


def still(client: Client, standing: Standing) -> Standing:
    """How a hold stands now. It ends with the connection that it was asked for on."""
    now = client.hold_stands(standing.claim)
    if now.gone:
        raise RefusedError(f"{standing.claim} ended before its time: the connection was lost. What you read may have changed since.", GONE)
    return now
