first
wrote S t
