"""The tools around the program dnssec_check: they make captures, verify signatures and judge questions."""
