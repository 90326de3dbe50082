"""Draws workloads, their texts and what is wrong with them. Every function takes the generator `dice` first."""
