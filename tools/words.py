"""The words that the run without a fault holds at the struck places."""
import itertools

from debugging.sessions import ask

# How many words one session asks for: its script has at most 1,048,576 bytes.
WORDS_AT_ONCE = 30_000


def words_there(object_file, wild, places):
    """The word at each of these places: pairs of a step and a site, ordered by step."""
    found = {}
    for at in range(0, len(places), WORDS_AT_ONCE):
        found.update(some_words(object_file, wild, places[at:at + WORDS_AT_ONCE]))
    return found


def some_words(object_file, wild, places):
    """Likewise for as many places as fit into one session. A site that does not exist has no word."""
    lines, here, found = [], 0, {}
    groups = [(step, [site for _, site in group]) for step, group in itertools.groupby(places, lambda place: place[0])]
    for step, sites in groups:
        lines += [f"step {step - here}"] + [f"reg {site}" for site in sites if site[0] != "q"]
        lines += ["queue"] if any(site[0] == "q" for site in sites) else []
        here = step
    answers = ask(object_file, lines, wild)
    for step, sites in groups:
        answers.step()
        found.update(((step, site), answers.register()[1]) for site in sites if site[0] != "q")
        if any(site[0] == "q" for site in sites):
            for pending, (address, value) in enumerate(answers.queue()):
                found[step, f"qa{pending}"], found[step, f"qv{pending}"] = address, value
    return found
