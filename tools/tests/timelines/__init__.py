"""Tests of timelines, as dnssec_check-judge asks for them and tells them."""
