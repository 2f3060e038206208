"""The parts of the workbench `snp-lab`. docs/WORKBENCH.md says what it does; nothing in it is proved."""
