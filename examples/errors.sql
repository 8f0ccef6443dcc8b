SELECT LogRow, cs-uri-stem, sc-status
FROM examples/u_ex240305.log
WHERE sc-status >= 400
