export interface Note { title: string; text: string }
