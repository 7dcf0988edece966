"""What each sample means, by the names of tshark's fields. A field that is not named must not be there.

tshark 4.0 departs from the standard in two places: of a Repetition Period it gives the low octet only, and of an entry of a Failure List
that names all cells it gives the discriminator and neither the entry's cause nor any entry behind it. Keep Alive Repetition Periods it
gives in seconds.
"""

TWO_CELLS = {"cell_id_disc": [1], "lac": [0x0101] * 2, "ci": [1, 2]}
FAILURES = {"cell_id_disc": [1, 1], "lac": [0x0101] * 2, "ci": [1, 2], "cause": [0x0C, 0x02]}
COUNTS = {"cell_id_disc": [1], "lac": [0x0101, 0x0101, 0x0102], "ci": [1, 2, 3], "num_bcast_compl": [7, 65535, 0], "num_bcast_info": [0, 1, 2]}
COUNT_BY_CI = {"cell_id_disc": [2], "ci": [2], "num_bcast_compl": [258], "num_bcast_info": [0]}
KILLED = {"message_id": [0x32], "old_serial_nr": [0x1010]}


def behind(first, second):
    """The fields of one list and then of another."""
    return {field: first.get(field, []) + second.get(field, []) for field in {**first, **second}}


MEANT = {
    "write-replace": {
        "msg_type": [1], "message_id": [0x32], "new_serial_nr": [0x1010], "cell_id_disc": [6], "channel_ind": [0], "category": [2],
        "rep_period": [10], "num_bcast_req": [0], "num_of_pages": [1], "dcs": [0x44], "user_info_len": [22],
        "pages": [b"Road closed until noon".ljust(82, b"\x2b")],
    },
    "write-replace long": {
        "msg_type": [1], "message_id": [0x433], "new_serial_nr": [0xC12F], "old_serial_nr": [0xC12E], "cell_id_disc": [1],
        "lac": [0x0101] * 64, "ci": list(range(1, 65)), "channel_ind": [1], "category": [0], "rep_period": [4095 & 0xFF],
        "num_bcast_req": [65535], "num_of_pages": [15], "dcs": [0x44], "user_info_len": [82] * 15,
        "pages": [bytes([letter]) * 82 for letter in b"abcdefghijklmno"],
    },
    "kill": {"msg_type": [4], **KILLED, "cell_id_disc": [2], "ci": [1], "channel_ind": [0]},
    "message status query": {
        "msg_type": [10], "message_id": [0x433], "old_serial_nr": [0x5678], "cell_id_disc": [5], "lac": [0x0101, 0xFFFE], "channel_ind": [1],
    },
    "reset": {"msg_type": [16], "cell_id_disc": [6]},
    "reset two": {"msg_type": [16], **TWO_CELLS},
    "keep-alive": {"msg_type": [22], "keepalive_rep_period": [120]},
    "write-replace complete": {"msg_type": [2], "message_id": [0x32], "new_serial_nr": [0x1010], **TWO_CELLS, "channel_ind": [0]},
    "write-replace failure": {
        "msg_type": [3], "message_id": [0x32], "new_serial_nr": [0x1020], "old_serial_nr": [0x1010], "cell_id_disc": [1, 2, 5, 6, 1, 2],
        "lac": [0x0101, 0x0202] + COUNTS["lac"], "ci": [1, 9] + COUNTS["ci"] + [1], "cause": [0x0A, 0x03, 0x0F],
        "num_bcast_compl": COUNTS["num_bcast_compl"], "num_bcast_info": COUNTS["num_bcast_info"], "channel_ind": [1],
    },
    "kill complete": {"msg_type": [5], **KILLED, **COUNTS, "channel_ind": [0]},
    "kill failure": {"msg_type": [6], **KILLED, **behind(FAILURES, COUNT_BY_CI)},
    "message status query complete": {"msg_type": [11], **KILLED, **COUNT_BY_CI, "channel_ind": [1]},
    "message status query failure": {"msg_type": [12], **KILLED, **behind(FAILURES, COUNTS), "channel_ind": [0]},
    "reset complete": {"msg_type": [17], **TWO_CELLS},
    "reset failure": {"msg_type": [18], **behind(FAILURES, {"cell_id_disc": [2], "ci": [1]})},
    "restart": {"msg_type": [19], **TWO_CELLS, "bcast_msg_type": [0], "recovery_ind": [1]},
    "failure": {"msg_type": [20], **FAILURES, "bcast_msg_type": [1]},
    "error indication": {"msg_type": [21], "cause": [1]},
    "error indication full": {
        "msg_type": [21], "cause": [8], "message_id": [0x32], "new_serial_nr": [0x1010], "old_serial_nr": [0x100F], "channel_ind": [1],
    },
    "keep-alive complete": {"msg_type": [23]},
}
