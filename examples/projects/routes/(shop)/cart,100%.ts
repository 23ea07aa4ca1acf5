import "../main.ts"
