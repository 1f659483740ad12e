"""The tests of tools/suite, which tools/suite-check runs."""
