"""Games for agents on other machines: lobby, relay, seats, journal, recovery and the live page."""
