"""Draws what happened on the link between two hosts of the simulator: `./flow --help`."""
