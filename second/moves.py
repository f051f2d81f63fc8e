"""A list of moves in one call: Req 05 of document 02, from its text alone.

"Take a list of up to 256 moves, each a controller and a value, in one call."
"""

from box import CONTROLLER, MEMORY, TAKEN
from kinds import ONE

MOST = 256     # "a list of up to 256 moves"
TOO_MANY = 33  # "more moves than 256 gives 33"
NO_ROOM = 34   # "a number buffer shorter than the list gives 34"


def in_pairs(data: bytes) -> list:
    """Return the moves that bytes hold, "each a controller and a value"."""
    # a last odd byte is no move
    return [*zip(data[::2], data[1::2])]


def carry_out(box, moves: list, numbers: bytearray, player: int = ONE) -> int:
    """Carry out a player's moves and note their numbers; return 0 or why not.

    Numbers behind the list keep their bytes.
    """
    refusal = turn_away(box, player, len(moves), len(numbers))
    # "nothing changes on any of these four"
    if refusal is not None:
        return refusal
    for place, move in enumerate(moves):
        numbers[place] = judge_move(box, player, *move)
    return TAKEN


def turn_away(box, player, count, room):
    """Return why a list is not taken, None where it is."""
    # "Refusals, tested 33, 34, then 30 and 32"
    if count > MOST:
        return TOO_MANY
    if room < count:
        return NO_ROOM
    # Req 04's 32 for the kind is "just before 30" here too, and Req 08's 31
    # for the player is "after 30"
    return box.turn_away_set(player, MEMORY)


def judge_move(box, player, controller, value):
    """Carry out one move: return "the number noted" for it."""
    # "those of the moves sent one by one on our channel"; "a controller above
    # 127 is 17, a value above 127 is 18, in the usual order": no page has
    # such a controller, and no controller takes such a value
    status = CONTROLLER << 4 | box.settings.channel
    return box.judge_channel(player, status, controller, value)
