"""What the tries at real servers are made of: the servers, other clients, lines, relays, and the tables; and a small server of our own (`plain.py`)."""
