"""From C to the subset of LLVM's text that haft reads. The command is tools/haft-cc; docs/C.md says what it does and what stays out."""
