"""Decides litmus tests of C by the axioms of the Linux kernel's memory model (tools/memory-model of the kernel), without RCU."""
