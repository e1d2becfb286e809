"""What listens: which links are let in, the addresses of this machine, and the server of pages."""
