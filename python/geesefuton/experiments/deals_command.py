"""Makes the games of a run again from its secret, and compares them byte for
byte.

FOLDER is the folder of a run (`tournament --out`) that is over. The secret in
its run.json has to be the one of the commitment that the run began with. The
exit status is 0 if all games are those of the secret.
"""

from functools import partial
from pathlib import Path

from geesefuton.arguments import Parser
from geesefuton.experiments.deals import RUN, SECRET, Rule, kept_secret, made_deal, read_rooms
from geesefuton.experiments.forms import printed
from geesefuton.experiments.runs import GAMES, RunError, read_record
from geesefuton.processes import command
from geesefuton.records.games import GameError, read_game


def _main() -> int:
    parser = Parser("deals", __doc__)
    parser.add_argument("folder", type=Path, metavar="FOLDER", help="the folder of a run")
    folder: Path = parser.parse_args().folder
    record = read_record(folder)
    settings, deals = record["settings"], record["deals"]
    if "commitment" not in deals:
        raise RunError(f"{folder}: its deals are of the seed {deals.get('seed')}")
    if SECRET not in deals:
        raise RunError(f"{folder}: its secret is told when all of its games are scored")
    rule = Rule(kept_secret(folder) or b"", rooms=read_rooms(str(settings["rooms"])),
                live=settings["live"] == "true", is_clumped="endow" in settings)
    if rule.drawn != {"commitment": deals["commitment"]}:
        raise RunError(f"{folder / RUN}: its secret is not the one of its commitment")
    flaws, files = [], sorted((folder / GAMES).glob("*.game"))
    for file in files:
        try:
            text = file.read_bytes().decode("latin-1")
            words = read_game(text).words
            made = made_deal(rule, int(file.name.split(".")[0])).game.named(words).text()
        except (GameError, ValueError) as fault:
            flaws.append(f"{file}: {fault}")
        else:
            flaws += [f"{file}: it is not the game of the secret"] if made != text else []
    if not files:
        raise RunError(f"{folder}: it has no games")
    return printed("deals", f"{len(files) - len(flaws)} of {len(files)} games are those of the "
                   "secret\n", flaws)


main = partial(command, "deals", _main)
