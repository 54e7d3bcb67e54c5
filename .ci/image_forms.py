"""What images are made of: the words of their numbers, kinds of records with their fields, and bounds."""
import state_rules as states

REASONS = """EXISTS LIMIT USER_UNKNOWN PRODUCT_UNKNOWN CARD_UNKNOWN GROUP_UNKNOWN CONTROL_FIXED SET_FIXED MOVE CARD_STATE USER_STATE CURRENCY
TXN_UNKNOWN TXN_CLOSED TXN_PENDING CONTROL INSUFFICIENT_FUNDS GATEWAY_DECLINED GATEWAY_CONNECTION GATEWAY_TIMEOUT GATEWAY_APPLICATION
GATEWAY_SWITCH STAND_IN_LIMIT REVERSED CLEARED EXPIRED REFUND_OVER""".split()
MARKS = "none asked funded refused connection timeout application abandoned part".split()
KINDS = {
    1: "user token user", 2: "card token card user product active", 3: "move token who",
    4: "product token product currency funding timeout_ms hold_ms", 5: "group token group mccs",
    6: "control token control currency window limits association scope active",
    7: "set token set product currency connection timeout application max day_limit active",
    8: "switch token product on", 9: "load token user currency amount",
    10: "authorization token card currency amount mcc mid", 11: "increment token txn currency amount",
    12: "reversal token txn currency amount", 13: "clearing token txn currency amount final",
    14: "refund token txn currency amount",
    18: "control token control currency window limits association scope active utc_offset",
    20: "authorization token card currency amount mcc mid",
}
NAMES = "token user card product group control set mid txn".split()
FLAGS = "active connection timeout application on final".split()
FUNDINGS, WINDOWS = ("ACCOUNT", "GATEWAY"), ("TRANSACTION", "DAY", "WEEK", "MONTH", "LIFETIME")
CARD_STATES = {1: "UNACTIVATED", 2: "ACTIVE", 3: "SUSPENDED", 4: "TERMINATED"}
USER_STATES = {2: "ACTIVE", 3: "SUSPENDED", 5: "CLOSED"}
CURRENCIES = {number: name for name, number in states.NUMBERS.items()}
DEFAULTS = {"product": "default", "active": True, "timeout_ms": 3000, "hold_ms": 604_800_000, "connection": False, "timeout": False,
            "application": False, "final": False, "on": False}
GREATEST_LIMIT, GREATEST_USAGE, MOST_OF_A_KIND = 1_000_000_000_000, 1_000_000, 256


def is_empty(state):
    return not any(state[part] for part in ("records", "now", "events", "txns", "balances", "counters", "sums", "made", "notices"))
