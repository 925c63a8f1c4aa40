"""Where the steps of a run go: how often each line was executed, and what each routine took."""
