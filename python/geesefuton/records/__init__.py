"""Games, logs, requests and replies as values; prices and reports made from them."""
