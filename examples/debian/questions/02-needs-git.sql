SELECT "from", version FROM depends WHERE "to" = 'git' AND version IS NOT NULL ORDER BY "from", version;
