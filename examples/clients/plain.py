#!/usr/bin/env python3
"""A bot that prints its dispatches, loses its link twice on purpose and resumes: plain.py URL TOKEN INTENTS [DROP..]

It drops its link after the dispatches with the numbers DROP (6 and 25), stays away for half a second, and resumes. When each
of its guilds has the name `end`, it closes. Status 0 if no dispatch was lost or came twice."""
import sys
import time

from gateway import Bot, Closed, Wrong

AWAY_SECONDS = 0.5
LONGEST_SILENCE = 60


def play(bot, drops):
    """Follows its guilds until each has the name `end`. How many drops there were, and how many dispatches came again."""
    names, dropped, replayed, behind = {}, 0, 0, False
    bot.connect()
    while True:
        dispatch = bot.next(LONGEST_SILENCE)
        if dispatch is None:
            raise Wrong(f"nothing came for {LONGEST_SILENCE} seconds")
        number, name, data = dispatch
        print(number, name, flush=True)
        if name == "READY":
            names = {guild["id"]: None for guild in data["guilds"]}
        elif name == "RESUMED":
            behind = False
        elif name in ("GUILD_CREATE", "GUILD_UPDATE"):
            names[data["id"]] = data["name"]
        replayed += behind
        if not behind and drops and number >= drops[0]:
            drops.pop(0)
            bot.drop()
            print("dropped after", number, flush=True)
            dropped += 1
            time.sleep(AWAY_SECONDS)
            bot.connect()
            behind = True
        elif not behind and names and set(names.values()) == {"end"}:
            return dropped, replayed


def main(url, token, intents, *drops):
    drops = [int(number) for number in drops] or [6, 25]
    bot = Bot(url, token, int(intents))
    dropped, replayed = play(bot, drops)
    bot.close()
    if drops:
        raise Wrong(f"the end came before the drop after {drops[0]}: connect before the edits are made")
    if bot.resumes_refused:
        raise Wrong("a resume was refused")
    print(f"right: {bot.number} dispatches, {dropped} drops, {replayed} replayed", flush=True)


if __name__ == "__main__":
    if len(sys.argv) < 4:
        sys.exit(__doc__)
    try:
        main(*sys.argv[1:])
    except (Wrong, Closed, OSError) as fault:
        sys.exit(f"plain.py: {fault}")
