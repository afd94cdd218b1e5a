"""The expressions of an object, without duplicates."""


class Nodes:
    """Expressions, each once. A node is a tuple (kind, ..); its scope is the smallest that it may have."""

    def __init__(self):
        self.rows, self.scopes, self.number = [], [], {}

    def make(self, *row):
        found = self.number.get(row)
        if found is None:
            kids = self.kids(row)
            scope = row[1] + 1 if row[0] == "var" else max((self.scopes[k] for k in kids), default=0)
            found = self.number[row] = len(self.rows)
            self.rows.append(row)
            self.scopes.append(scope)
        return found

    @staticmethod
    def kids(row):
        return () if row[0] in ("word", "var", "memory", "code") else (row[1],) if row[0] == "rem" else row[1:]
