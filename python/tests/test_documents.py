"""Every example in the documentation."""

import doctest

import kneukelboom


def load_tests(_loader, tests, _pattern):
    tests.addTest(doctest.DocTestSuite(kneukelboom))
    tests.addTest(doctest.DocFileSuite("../README.md"))
    return tests
