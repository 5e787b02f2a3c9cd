"""The parts of `salsa explore`. None of them is trusted: what a run leaves counts because `salsa confirm` verifies it."""
