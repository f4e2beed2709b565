#!/usr/bin/env python3
"""The module tulgexar.client_trace of the package in python/: as a program, and for who has this folder on the path."""

import packaged

packaged.stand_for(__name__, __file__)
