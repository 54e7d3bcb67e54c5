"""Whether settings and loads are decided as those before them have it."""
import state_rules as states
from image_forms import MOST_OF_A_KIND


class Settings:
    """What settings have made so far, and why the next one is declined."""

    def __init__(self):
        self.users, self.cards, self.groups, self.controls, self.sets = {}, {}, {}, {}, {}
        self.products = {"default": "USD"}

    def moved(self, body):
        known, name = (self.cards, body["card"]) if "card" in body else (self.users, body["user"])
        if name not in known:
            return ("CARD_UNKNOWN",) if "card" in body else ("USER_UNKNOWN",)
        state = known[name]
        ends = "TERMINATED" if "card" in body else "CLOSED"
        may = {"UNACTIVATED": ("ACTIVE", ends), "ACTIVE": ("SUSPENDED", ends), "SUSPENDED": ("ACTIVE", ends)}
        return None if body["to"] in may.get(state, ()) else ("MOVE", state, body["to"])

    def control(self, body):
        fixed = tuple(body.get(k) for k in ("currency", "window", "association", "scope", "utc_offset"))
        if body["control"] in self.controls:
            return None if self.controls[body["control"]] == fixed else ("CONTROL_FIXED",)
        word, name = body.get("association", (None, None))
        if word == "user" and name not in self.users:
            return ("USER_UNKNOWN",)
        if word == "product" and name not in self.products:
            return ("PRODUCT_UNKNOWN",)
        word, name = body.get("scope", (None, None))
        if word == "group" and name not in self.groups:
            return ("GROUP_UNKNOWN",)
        return ("LIMIT",) if len(self.controls) >= MOST_OF_A_KIND else None

    def set(self, body):
        fixed = (body["product"], body["currency"])
        if body["set"] in self.sets:
            return None if self.sets[body["set"]] == fixed else ("SET_FIXED",)
        if body["product"] not in self.products:
            return ("PRODUCT_UNKNOWN",)
        if self.products[body["product"]] != body["currency"]:
            return ("CURRENCY",)
        return ("LIMIT",) if len(self.sets) >= MOST_OF_A_KIND else None

    def made(self, known, name):
        return ("EXISTS",) if name in known else ("LIMIT",) if len(known) >= MOST_OF_A_KIND else None

    def reason(self, body):
        kind = body["type"]
        if kind == "user":
            return ("EXISTS",) if body["user"] in self.users else None
        if kind == "card":
            missing = ("USER_UNKNOWN",) if body["user"] not in self.users else ("PRODUCT_UNKNOWN",)
            if body["user"] not in self.users or body["product"] not in self.products:
                return missing
            return ("EXISTS",) if body["card"] in self.cards else None
        if kind == "switch":
            return None if body["product"] in self.products else ("PRODUCT_UNKNOWN",)
        if kind == "load":
            if body["user"] not in self.users:
                return ("USER_UNKNOWN",)
            return ("USER_STATE",) if self.users[body["user"]] == "CLOSED" else None
        if kind in ("product", "group"):
            return self.made(self.products if kind == "product" else self.groups, body[kind])
        return {"move": self.moved, "control": self.control, "set": self.set}[kind](body)

    def take(self, body):
        kind = body["type"]
        if kind == "user":
            self.users[body["user"]] = "ACTIVE"
        elif kind == "card":
            self.cards[body["card"]] = "ACTIVE" if body["active"] else "UNACTIVATED"
        elif kind == "move":
            (self.cards if "card" in body else self.users)[body.get("card") or body["user"]] = body["to"]
        elif kind == "product":
            self.products[body["product"]] = body["currency"]
        elif kind == "group":
            self.groups[body["group"]] = True
        elif kind == "control":
            fixed = tuple(body.get(k) for k in ("currency", "window", "association", "scope", "utc_offset"))
            self.controls[body["control"]] = fixed
        elif kind == "set":
            self.sets[body["set"]] = (body["product"], body["currency"])


def are_judged(state):
    settings = Settings()
    for e in state["events"]:
        if e["body"]["type"] in states.CARD_EVENTS:
            continue
        reason = settings.reason(e["body"])
        if (e["verdict"] == "done") != (reason is None) or (reason and e["reason"] != reason):
            return False
        if reason is None:
            settings.take(e["body"])
    return True
