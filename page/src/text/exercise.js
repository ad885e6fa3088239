// A teacher's file with an exercise of the lab.

import { exerciseOf } from "../lab/exercises.js";
import { Wrong } from "../lab/procedures.js";

// What an exercise is: {exercise: {file, title, task, text, needs, asked}}, or {refusal} in words.
export function readExercise(file) {
  try {
    const asked = exerciseOf(file), {exercise: title, task, text, needs} = asked;
    return {exercise: {file, title, task, text, needs, asked}};
  } catch (error) {
    if (!(error instanceof Wrong)) throw error;
    return {refusal: `this is no exercise: ${error.message}`};
  }
}
