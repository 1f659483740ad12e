"""The rules of tools/lint: each is a module here, and its name is the rule's, with `-` for `_`."""
