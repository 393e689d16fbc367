"""Why a world or a transcript is refused, what is likely meant, and what looks wrong in accepted ones."""
