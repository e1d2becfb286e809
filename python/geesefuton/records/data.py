"""The columns of the tables of a tournament's games, as `geesefuton data` writes them.

A table is a CSV file with a head. docs/FORMATS.md says what the columns mean.
"""

TRIP = "arrive depart alligators park museum"
ENTRY = "game tick good position seat agent"
TABLES = {name: columns.split() for name, columns in {
    "games": "game name deal rotation kind ticks missed live run settings",
    "deals": f"deal seat client premium {TRIP}",
    "goods": "deal good group day first bound rooms closes endow0 endow1 endow2 endow3 endow4 "
             "endow5 endow6 endow7",
    "quotes": "game tick good bid ask closed",
    "bids": f"{ENTRY} call units price reply",
    "trades": f"{ENTRY} other units price dollars",
    "scores": "game seat agent utility flights hotels tickets short penalties cash score end luck "
              "nights first_price files",
    "trips": f"game seat agent client hotel {TRIP} worth"}.items()}
