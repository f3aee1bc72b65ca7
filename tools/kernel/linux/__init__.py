"""The parts of `tools/kernel/beside-linux`: a Linux kernel in an emulator, and the rules beside it."""
