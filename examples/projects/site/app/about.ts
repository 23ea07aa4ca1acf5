import './home.ts'
