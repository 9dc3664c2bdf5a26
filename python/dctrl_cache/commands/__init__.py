"""The commands dctrl-cache-apt and dctrl-cache-try."""
