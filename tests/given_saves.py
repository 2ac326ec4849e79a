"""Saves that tests spell themselves, and their parts (docs/SAVES.md)."""
import model


def frame(kind, place, depth=0, evaluating=False, fresh=False, **temps):
    return {"depth": depth, "eval": evaluating, "fresh": fresh, "kind": kind, "place": place, "temps": temps}


def thread(previous, *frames):
    return {"frames": list(frames), "previous": previous}


def choice(text, target, stands, hidden=False, *tags):
    return {"hidden": hidden, "tags": list(tags), "target": target, "text": text, "thread": stands}


def save_1(**other):
    """A save in layout 1 of a story with the one global x, with these in the place of what it has at its start."""
    return dict({"choices": [], "format": 1, "globals": [["x", 1]], "safe": False, "stack": [], "threads": [thread(None, frame("base", [0, 0]))],
                 "turn": 0, "turns": [], "visits": []}, **other)


def save(**other):
    """The same in layout 2."""
    return model.in_layout_2(save_1(**other))


def flow(name, **other):
    """A flow of a save, with these in the place of what it has at its start."""
    return dict(save(**other)["flows"][0], name=name)
