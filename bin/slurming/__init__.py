"""The modules of bin/slurm, which has Slurm run what a coordinator places. docs/slurm.md says what it does."""
