"""Entries of a TOML file, each asked for as what it should be; a wrong one becomes a problem."""


class Entries:
    def __init__(self, toml, problems):
        self.toml, self.problems = toml, problems

    def wrong(self, path, message, text=None):
        self.problems.add(self.toml.path, self.toml.line(*path, text=text), message)

    def find(self, path, default):
        found = self.toml.data
        for key in path:
            if isinstance(key, str) and (not isinstance(found, dict) or key not in found):
                return default
            found = found[key]
        return found

    def table(self, path, allowed=None):
        """The table at this path, without the keys that are not allowed there; none is an empty one."""
        found = self.find(path, {})
        if not isinstance(found, dict):
            self.wrong(path, f'"{path[-1]}" must be a table')
            return {}
        for key in found:
            if allowed and key not in allowed:
                self.wrong(path + (key,), f'unknown key "{key}"; allowed: {", ".join(allowed)}')
        return {key: value for key, value in found.items() if not allowed or key in allowed}

    def tables(self, path):
        """How many tables the array at this path has."""
        found = self.find(path, [])
        if not isinstance(found, list) or not all(isinstance(item, dict) for item in found):
            self.wrong(path, f'"{path[-1]}" must be an array of tables, each of which begins with [[{path[-1]}]]')
            return 0
        return len(found)

    def text(self, path, default):
        """The text at this path, or the default where there is none or no text."""
        found = self.find(path, default)
        if not isinstance(found, str) and found != default:
            self.wrong(path, f'"{path[-1]}" must be a text in quotation marks')
            return default
        return found

    def flag(self, path):
        """Whether the entry at this path is true; false where there is none."""
        found = self.find(path, False)
        if not isinstance(found, bool):
            self.wrong(path, f'"{path[-1]}" must be true or false')
        return found is True

    def texts(self, path, least=0):
        """The texts at this path: an array of them, or one alone; none where there is no entry."""
        found = self.find(path, None)
        if found is None:
            return []
        found = [found] if isinstance(found, str) else found
        if not isinstance(found, list) or not all(isinstance(item, str) for item in found):
            self.wrong(path, f'"{path[-1]}" must be a text in quotation marks, or an array of them')
            return []
        if len(found) < least:
            self.wrong(path, f'"{path[-1]}" is empty; it needs at least {least}')
        return found
